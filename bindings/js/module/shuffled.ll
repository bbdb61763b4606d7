
; What `pshufb` of x86-64 does, on any machine: each byte is the one of `bytes` at the place that the low four bits of its place
; say, or 0 where the place's highest bit is set.
define internal <16 x i8> @shuffled(<16 x i8> %bytes, <16 x i8> %places) {
start:
  br label %next
next:
  %i = phi i32 [ 0, %start ], [ %after, %next ]
  %made = phi <16 x i8> [ zeroinitializer, %start ], [ %more, %next ]
  %place = extractelement <16 x i8> %places, i32 %i
  %low = and i8 %place, 15
  %found = extractelement <16 x i8> %bytes, i8 %low
  %is_none = icmp slt i8 %place, 0
  %byte = select i1 %is_none, i8 0, i8 %found
  %more = insertelement <16 x i8> %made, i8 %byte, i32 %i
  %after = add nuw nsw i32 %i, 1
  %is_done = icmp eq i32 %after, 16
  br i1 %is_done, label %end, label %next
end:
  ret <16 x i8> %more
}
