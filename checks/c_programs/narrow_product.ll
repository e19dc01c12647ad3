; A product of 24 bits that overflows them, and not the word: C on the host has no such numbers. It outputs 0 and 1 for the words 1000 and 1000.
target datalayout = "e-m:e-p:32:32-i64:64-n32-S128"
target triple = "riscv32-unknown-unknown-elf"
declare void @tta_out(i32)
declare i32 @tta_in()
declare { i24, i1 } @llvm.smul.with.overflow.i24(i24, i24)
define i32 @main() {
  %a = call i32 @tta_in()
  %b = call i32 @tta_in()
  %x = trunc i32 %a to i24
  %y = trunc i32 %b to i24
  %r = call { i24, i1 } @llvm.smul.with.overflow.i24(i24 %x, i24 %y)
  %v = extractvalue { i24, i1 } %r, 0
  %o = extractvalue { i24, i1 } %r, 1
  %w = zext i24 %v to i32
  %p = zext i1 %o to i32
  call void @tta_out(i32 %w)
  call void @tta_out(i32 %p)
  ret i32 0
}
