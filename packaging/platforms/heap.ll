; The heap that the toolchain's code calls, over malloc, realloc and free, as packaging/heap.c has it in C.
;
; It is in LLVM's language because its callers are: they take a struct of a boolean and a pointer back in two registers,
; as C does on Linux and macOS and does not on Windows. An alignment divides 16, which malloc keeps on every platform
; with 64 bits. A block of no bytes takes as many as its alignment, so that its address is its own.

@nothing = internal global i8 0

declare ptr @malloc(i64)
declare ptr @realloc(ptr, i64)
declare void @free(ptr)

; Whether there is memory, and where. If there is none, the address is of a byte that nobody reads.
define internal { i64, i64 } @answer(ptr %block) nounwind {
  %is_null = icmp eq ptr %block, null
  %pointer = select i1 %is_null, ptr @nothing, ptr %block
  %is_there = select i1 %is_null, i64 0, i64 1
  %address = ptrtoint ptr %pointer to i64
  %first = insertvalue { i64, i64 } poison, i64 %is_there, 0
  %both = insertvalue { i64, i64 } %first, i64 %address, 1
  ret { i64, i64 } %both
}

define internal i64 @at_least(i64 %size, i64 %alignment) nounwind {
  %is_empty = icmp eq i64 %size, 0
  %bytes = select i1 %is_empty, i64 %alignment, i64 %size
  ret i64 %bytes
}

define internal { i64, i64 } @rattle_alloc(i64 noundef %size, i64 noundef %alignment) nounwind {
  %bytes = call i64 @at_least(i64 %size, i64 %alignment)
  %block = call ptr @malloc(i64 %bytes)
  %found = call { i64, i64 } @answer(ptr %block)
  ret { i64, i64 } %found
}

; realloc keeps the first bytes by itself.
define internal { i64, i64 } @rattle_realloc(ptr noundef %old, i64 noundef %kept, i64 noundef %size, i64 noundef %alignment) nounwind {
  %bytes = call i64 @at_least(i64 %size, i64 %alignment)
  %block = call ptr @realloc(ptr %old, i64 %bytes)
  %found = call { i64, i64 } @answer(ptr %block)
  ret { i64, i64 } %found
}

define internal void @rattle_dealloc(ptr noundef %block) nounwind {
  call void @free(ptr %block)
  ret void
}
