module wathread.invalid/wathread

go 1.18
