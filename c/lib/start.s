# Where a started thread begins, by its number and the argument of its start. The block of thread-local data of thread I
# lies at `thread_first + I * thread_size`, with its stack right below it: wathread-link fills in these values. Without
# --shared-memory wasm-ld gives thread-local data absolute addresses, those of thread 0, to which the code adds
# `__tls_base`: that is 0 there, and in another thread the distance of its block.
	.globaltype	__stack_pointer, i32
	.globaltype	__tls_base, i32
	.globl	__tls_base
__tls_base:
	.globaltype	thread_image, i32
	.globl	thread_image
thread_image:
	.globaltype	thread_first, i32
	.globl	thread_first
thread_first:
	.globaltype	thread_size, i32
	.globl	thread_size
thread_size:
	.globaltype	thread_count, i32
	.globl	thread_count
thread_count:
	.globaltype	thread_stack, i32
	.globl	thread_stack
thread_stack:
	.globaltype	thread_limit, i32
	.globl	thread_limit
thread_limit:
	.globaltype	thread_number, i32
	.globl	thread_number
thread_number:
	.globaltype	thread_values, i32
	.globl	thread_values
thread_values:
	.globaltype	program_constructs, i32
	.globl	program_constructs
program_constructs:
	.globaltype	program_fences, i32
	.globl	program_fences
program_fences:
	.globaltype	constants_first, i32
	.globl	constants_first
constants_first:
	.globaltype	constants_size, i32
	.globl	constants_size
constants_size:
	.globaltype	thread_owner, i32
thread_owner:
	.globaltype	thread_later, i32
thread_later:
	.globaltype	thread_came, i32
thread_came:
	.globaltype	thread_lists, i32
thread_lists:
	.globaltype	thread_leaves, i32
thread_leaves:
	.globaltype	thread_result, i32
thread_result:
	.functype	__wathread_begin (i32, i32) -> ()
	.functype	__wathread_traps () -> ()
	.functype	__wathread_values_anew () -> ()

	.section	.text.wasi_thread_start,"",@
	.globl	wasi_thread_start
	.export_name	wasi_thread_start, wasi_thread_start
	.type	wasi_thread_start,@function
wasi_thread_start:
	.functype	wasi_thread_start (i32, i32) -> ()
	local.get	0
	global.set	thread_number
	local.get	0
	global.set	thread_owner
	global.get	thread_first
	local.get	0
	global.get	thread_size
	i32.mul
	i32.add
	global.set	__stack_pointer
	global.get	__stack_pointer
	global.get	thread_image
	i32.sub
	global.set	__tls_base
	global.get	__stack_pointer
	global.get	thread_stack
	i32.sub
	global.set	thread_limit
	local.get	1
	i32.const	128
	i32.ge_s
	if
	local.get	1
	local.get	1
	i32.extend8_s
	i32.sub
	global.set	thread_later
	local.get	1
	i32.extend8_s
	local.set	1
	global.get	thread_later
	i32.const	2
	i32.shr_u
	local.get	0
	i32.or
	global.set	thread_owner
	call	__wathread_values_anew
	end_if
	local.get	0
	local.get	1
	call	__wathread_begin
	end_function

	.section	.text.thread_self,"",@
	.globl	thread_self
	.type	thread_self,@function
thread_self:
	.functype	thread_self () -> (i32)
	global.get	thread_number
	end_function

	.section	.text.__wathread_most,"",@
	.globl	__wathread_most
	.type	__wathread_most,@function
__wathread_most:
	.functype	__wathread_most () -> (i32)
	global.get	thread_count
	end_function

# Where the thread-local data of a started thread lie, how many bytes they have, and its stack.
	.section	.text.__wathread_values,"",@
	.globl	__wathread_values
	.type	__wathread_values,@function
__wathread_values:
	.functype	__wathread_values () -> (i32)
	global.get	thread_limit
	global.get	thread_stack
	i32.add
	end_function

	.section	.text.__wathread_values_size,"",@
	.globl	__wathread_values_size
	.type	__wathread_values_size,@function
__wathread_values_size:
	.functype	__wathread_values_size () -> (i32)
	global.get	thread_size
	global.get	thread_stack
	i32.sub
	end_function

	.section	.text.__wathread_stack,"",@
	.globl	__wathread_stack
	.type	__wathread_stack,@function
__wathread_stack:
	.functype	__wathread_stack () -> (i32)
	global.get	thread_stack
	end_function

# The first values of thread-local data, where these aren't all zero: they are kept for the calls that come later (calls.c).
	.section	.text.__wathread_first_values,"",@
	.globl	__wathread_first_values
	.type	__wathread_first_values,@function
__wathread_first_values:
	.functype	__wathread_first_values () -> (i32)
	global.get	thread_values
	end_function

# In a later call its number, 256 times, which is added to what a thread is started with, and what a mutex has of its owner:
# the thread's number, and above it that of a later call, but for thread 0.
	.section	.text.__wathread_later,"",@
	.globl	__wathread_later
	.type	__wathread_later,@function
__wathread_later:
	.functype	__wathread_later () -> (i32)
	global.get	thread_later
	end_function

	.section	.text.__wathread_set_later,"",@
	.globl	__wathread_set_later
	.type	__wathread_set_later,@function
__wathread_set_later:
	.functype	__wathread_set_later (i32) -> ()
	local.get	0
	global.set	thread_later
	end_function

	.section	.text.__wathread_owner,"",@
	.globl	__wathread_owner
	.type	__wathread_owner,@function
__wathread_owner:
	.functype	__wathread_owner () -> (i32)
	global.get	thread_owner
	end_function

# Whether the thread has come here before.
	.section	.text.__wathread_came,"",@
	.globl	__wathread_came
	.type	__wathread_came,@function
__wathread_came:
	.functype	__wathread_came () -> (i32)
	global.get	thread_came
	i32.const	1
	global.set	thread_came
	end_function

# The lists that atexit and the like began in this call, as bits, before these more.
	.section	.text.__wathread_lists,"",@
	.globl	__wathread_lists
	.type	__wathread_lists,@function
__wathread_lists:
	.functype	__wathread_lists (i32) -> (i32)
	global.get	thread_lists
	global.get	thread_lists
	local.get	0
	i32.or
	global.set	thread_lists
	end_function

# Whether there is anything that __wasm_call_ctors calls.
	.section	.text.__wathread_constructs,"",@
	.globl	__wathread_constructs
	.type	__wathread_constructs,@function
__wathread_constructs:
	.functype	__wathread_constructs () -> (i32)
	global.get	program_constructs
	end_function

# A thread that leaves returns from all its functions, each of which looks whether it does (blocks.py): these make no event.
# What it leaves with is its result, and it leaves no more once that was asked for.
	.section	.text.__wathread_leave,"",@
	.globl	__wathread_leave
	.type	__wathread_leave,@function
__wathread_leave:
	.functype	__wathread_leave (i32) -> ()
	local.get	0
	global.set	thread_result
	i32.const	1
	global.set	thread_leaves
	end_function

	.section	.text.__wathread_leaving,"",@
	.globl	__wathread_leaving
	.type	__wathread_leaving,@function
__wathread_leaving:
	.functype	__wathread_leaving () -> (i32)
	global.get	thread_leaves
	end_function

	.section	.text.__wathread_result,"",@
	.globl	__wathread_result
	.type	__wathread_result,@function
__wathread_result:
	.functype	__wathread_result () -> (i32)
	i32.const	0
	global.set	thread_leaves
	global.get	thread_result
	end_function

# Where the program asks for one of these, wathread-cc finds `__wathread_asks` in what it linked, and links once more, with
# choices.c. The first time lines that begin so are code.
#first	.section	.text.__wathread_asks,"",@
#first	.type	__wathread_asks,@function
#first__wathread_asks:
#first	.functype	__wathread_asks () -> ()
#first	unreachable
#first	end_function
#first	.section	.text.nondet,"",@
#first	.weak	nondet
#first	.type	nondet,@function
#firstnondet:
#first	.functype	nondet (i32, i32) -> (i32)
#first	call	__wathread_asks
#first	unreachable
#first	end_function
#first	.section	.text.assume,"",@
#first	.weak	assume
#first	.type	assume,@function
#firstassume:
#first	.functype	assume (i32) -> ()
#first	call	__wathread_asks
#first	end_function

# What -finstrument-function-entry-bare calls in each function once that has its frame: a trap where the stack is too
# small. It makes no event, and costs six units. In traces it is called `stack_overflow`. With --orders c11 the line that
# begins so is code.
	.section	.text.__cyg_profile_func_enter_bare,"",@
	.globl	__cyg_profile_func_enter_bare
	.type	__cyg_profile_func_enter_bare,@function
__cyg_profile_func_enter_bare:
	.functype	__cyg_profile_func_enter_bare () -> ()
	global.get	__stack_pointer
	global.get	thread_limit
	i32.lt_s
	if
#orders	call	__wathread_traps
	unreachable
	end_if
	end_function

# For --orders c11 (orders.c): numbers that each thread has for itself, and no memory: so they are in no entry and no race.
	.macro	number_of_thread name type
	.globaltype	number_\name, \type
	.globl	number_\name
number_\name:
	.endm

#orders	number_of_thread slot, i32
#orders	number_of_thread parallel, i32
#orders	number_of_thread stays, i32
#orders	number_of_thread tolds, i32
#orders	number_of_thread often, i32
#orders	number_of_thread failed, i32
#orders	number_of_thread noted, i32
#orders	number_of_thread counted, i32
#orders	number_of_thread fence, i32
#orders	number_of_thread marks, i32
#orders	number_of_thread head, i32
#orders	number_of_thread site, i32
#orders	number_of_thread lettered, i32
#orders	number_of_thread letters, i64
#orders	number_of_thread done, i64
#orders	number_of_thread inside, i64
#orders	number_of_thread what0, i64
#orders	number_of_thread what1, i64
#orders	number_of_thread what2, i64
#orders	number_of_thread what3, i64
#orders	number_of_thread value0, i64
#orders	number_of_thread value1, i64
#orders	number_of_thread value2, i64
#orders	number_of_thread value3, i64

# The same: whether the program has fences, and where constants lie.
	.section	.text.__wathread_fences,"",@
	.globl	__wathread_fences
	.type	__wathread_fences,@function
__wathread_fences:
	.functype	__wathread_fences () -> (i32)
	global.get	program_fences
	end_function

	.section	.text.__wathread_is_constant,"",@
	.globl	__wathread_is_constant
	.type	__wathread_is_constant,@function
__wathread_is_constant:
	.functype	__wathread_is_constant (i32) -> (i32)
	local.get	0
	global.get	constants_first
	i32.sub
	global.get	constants_size
	i32.lt_u
	end_function
