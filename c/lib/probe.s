# Linked along where clang is of a version behind 19. Without --shared-memory, lld 14 to 19 gives thread-local data its
# addresses in `main`, and lld 22 its distances from the first byte of it. wathread-link reads the constant below, and
# looks where the mark is.
	.section	.tdata.__wathread_mark,"T",@
	.globl	__wathread_mark
	.p2align	2
__wathread_mark:
	.int32	0x6b72616d
	.size	__wathread_mark, 4

	.section	.text.__wathread_probe,"",@
	.globl	__wathread_probe
	.type	__wathread_probe,@function
__wathread_probe:
	.functype	__wathread_probe () -> (i32)
	i32.const	__wathread_mark@TLSREL
	end_function
