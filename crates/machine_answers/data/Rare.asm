# What javac seldom writes or never. Each block asserts, from the top of the stack, the digits that an instruction leaves there.
class Rare super java/lang/Object flags 33 major 52
method 1 <init> ()V stack 1 locals 1
aload_0
invokespecial java/lang/Object.<init> ()V
return
method 1 pops ()V stack 12 locals 1
nop
# int int int
iconst_1
iconst_2
iconst_3
pop2
i2l
ldc2_w 1
invokestatic org/junit/Assert.assertEquals (JJ)V
# int long
iconst_1
ldc2_w 2
pop2
i2l
ldc2_w 1
invokestatic org/junit/Assert.assertEquals (JJ)V
# int int int
iconst_1
iconst_2
iconst_3
pop
bipush 10
imul
iadd
i2l
ldc2_w 21
invokestatic org/junit/Assert.assertEquals (JJ)V
# int int
iconst_1
iconst_2
swap
bipush 10
imul
iadd
i2l
ldc2_w 12
invokestatic org/junit/Assert.assertEquals (JJ)V
return
method 1 single ()V stack 12 locals 1
# int
iconst_1
dup
bipush 10
imul
iadd
i2l
ldc2_w 11
invokestatic org/junit/Assert.assertEquals (JJ)V
# int int
iconst_1
iconst_2
dup_x1
bipush 10
imul
iadd
bipush 10
imul
iadd
i2l
ldc2_w 212
invokestatic org/junit/Assert.assertEquals (JJ)V
# int int int
iconst_1
iconst_2
iconst_3
dup_x2
bipush 10
imul
iadd
bipush 10
imul
iadd
bipush 10
imul
iadd
i2l
ldc2_w 3213
invokestatic org/junit/Assert.assertEquals (JJ)V
# long int
ldc2_w 1
iconst_2
dup_x2
i2l
ldc2_w 10
lmul
ladd
l2i
bipush 10
imul
iadd
i2l
ldc2_w 212
invokestatic org/junit/Assert.assertEquals (JJ)V
return
method 1 double ()V stack 12 locals 1
# int int
iconst_1
iconst_2
dup2
bipush 10
imul
iadd
bipush 10
imul
iadd
bipush 10
imul
iadd
i2l
ldc2_w 2121
invokestatic org/junit/Assert.assertEquals (JJ)V
# long
ldc2_w 1
dup2
ldc2_w 10
lmul
ladd
ldc2_w 11
invokestatic org/junit/Assert.assertEquals (JJ)V
# int int int
iconst_1
iconst_2
iconst_3
dup2_x1
bipush 10
imul
iadd
bipush 10
imul
iadd
bipush 10
imul
iadd
bipush 10
imul
iadd
i2l
ldc2_w 32132
invokestatic org/junit/Assert.assertEquals (JJ)V
# int long
iconst_1
ldc2_w 2
dup2_x1
l2i
bipush 10
imul
iadd
i2l
ldc2_w 10
lmul
ladd
ldc2_w 212
invokestatic org/junit/Assert.assertEquals (JJ)V
# int int int int
iconst_1
iconst_2
iconst_3
iconst_4
dup2_x2
bipush 10
imul
iadd
bipush 10
imul
iadd
bipush 10
imul
iadd
bipush 10
imul
iadd
bipush 10
imul
iadd
i2l
ldc2_w 432143
invokestatic org/junit/Assert.assertEquals (JJ)V
# int int long
iconst_1
iconst_2
ldc2_w 3
dup2_x2
l2i
bipush 10
imul
iadd
bipush 10
imul
iadd
i2l
ldc2_w 10
lmul
ladd
ldc2_w 3213
invokestatic org/junit/Assert.assertEquals (JJ)V
# long int int
ldc2_w 1
iconst_2
iconst_3
dup2_x2
bipush 10
imul
iadd
i2l
ldc2_w 10
lmul
ladd
l2i
bipush 10
imul
iadd
bipush 10
imul
iadd
i2l
ldc2_w 32132
invokestatic org/junit/Assert.assertEquals (JJ)V
# long long
ldc2_w 1
ldc2_w 2
dup2_x2
ldc2_w 10
lmul
ladd
ldc2_w 10
lmul
ladd
ldc2_w 212
invokestatic org/junit/Assert.assertEquals (JJ)V
return
method 1 wide ()V stack 4 locals 304
bipush 7
wide istore 300
wide iinc 300 -1000
wide iload 300
i2l
ldc2_w -993
invokestatic org/junit/Assert.assertEquals (JJ)V
ldc2_w 5
wide lstore 301
wide lload 301
ldc2_w 5
invokestatic org/junit/Assert.assertEquals (JJ)V
ldc "a"
wide astore 303
wide aload 303
ldc "a"
invokestatic org/junit/Assert.assertSame (Ljava/lang/Object;Ljava/lang/Object;)V
return
method 1 constants ()V stack 4 locals 1
ldc_w 70000
i2l
ldc2_w 70000
invokestatic org/junit/Assert.assertEquals (JJ)V
ldc_w "a"
ldc "a"
invokestatic org/junit/Assert.assertSame (Ljava/lang/Object;Ljava/lang/Object;)V
ldc_w class Rare
ldc class Rare
invokestatic org/junit/Assert.assertSame (Ljava/lang/Object;Ljava/lang/Object;)V
return
method 1 far ()V stack 4 locals 2
iconst_0
istore_1
goto_w AHEAD
BACK:
frame append int
iload_1
i2l
ldc2_w 1
invokestatic org/junit/Assert.assertEquals (JJ)V
return
AHEAD:
frame same
iinc 1 1
goto_w BACK
end
