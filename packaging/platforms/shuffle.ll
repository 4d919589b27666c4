; What x86-64 does by one instruction, for a processor that has no such: byte k of the result is the byte of `bytes`
; whose index is in the low 4 bits of byte k of `places`, or 0 if the highest bit there is set.

define internal <16 x i8> @x86.ssse3.pshuf.b.128(<16 x i8> %bytes, <16 x i8> %places) nounwind {
start:
  br label %next_byte

next_byte:
  %k = phi i64 [ 0, %start ], [ %next, %next_byte ]
  %found = phi <16 x i8> [ zeroinitializer, %start ], [ %more, %next_byte ]
  %place = extractelement <16 x i8> %places, i64 %k
  %index = and i8 %place, 15
  %byte = extractelement <16 x i8> %bytes, i8 %index
  %is_none = icmp slt i8 %place, 0
  %value = select i1 %is_none, i8 0, i8 %byte
  %more = insertelement <16 x i8> %found, i8 %value, i64 %k
  %next = add i64 %k, 1
  %is_last = icmp eq i64 %next, 16
  br i1 %is_last, label %end, label %next_byte

end:
  ret <16 x i8> %more
}
