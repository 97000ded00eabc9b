define i32 @step(i32 %sum, i32 %next) {
entry: call i32 @llvm.x86.sse42.crc32.32.32(i32 %sum, i32 %next)
ret i32 %0
}

; Function Attrs: nofree nosync nounwind readnone
declare i32 @llvm.x86.sse42.crc32.32.32(i32, i32)
