/* The instructions of the 6502: how each is written, and how long it is. */

/* How many bytes an instruction has, by how it finds its operand. */
const SIZES = {
  '': 1, '#': 2, zp: 2, 'zp,x': 2, 'zp,y': 2, abs: 3, 'abs,x': 3, 'abs,y': 3, '(zp,x)': 2,
  '(zp),y': 2, rel: 2, '(abs)': 3,
};

/* A name in a line, and its opcodes, each with how it finds its operand. */
const INSTRUCTIONS = `
adc 69# 65zp 75zp,x 6dabs 7dabs,x 79abs,y 61(zp,x) 71(zp),y
and 29# 25zp 35zp,x 2dabs 3dabs,x 39abs,y 21(zp,x) 31(zp),y
asl 0a 06zp 16zp,x 0eabs 1eabs,x
bcc 90rel
bcs b0rel
beq f0rel
bit 24zp 2cabs
bmi 30rel
bne d0rel
bpl 10rel
brk 00
bvc 50rel
bvs 70rel
clc 18
cld d8
cli 58
clv b8
cmp c9# c5zp d5zp,x cdabs ddabs,x d9abs,y c1(zp,x) d1(zp),y
cpx e0# e4zp ecabs
cpy c0# c4zp ccabs
dec c6zp d6zp,x ceabs deabs,x
dex ca
dey 88
eor 49# 45zp 55zp,x 4dabs 5dabs,x 59abs,y 41(zp,x) 51(zp),y
inc e6zp f6zp,x eeabs feabs,x
inx e8
iny c8
jmp 4cabs 6c(abs)
jsr 20abs
lda a9# a5zp b5zp,x adabs bdabs,x b9abs,y a1(zp,x) b1(zp),y
ldx a2# a6zp b6zp,y aeabs beabs,y
ldy a0# a4zp b4zp,x acabs bcabs,x
lsr 4a 46zp 56zp,x 4eabs 5eabs,x
nop ea
ora 09# 05zp 15zp,x 0dabs 1dabs,x 19abs,y 01(zp,x) 11(zp),y
pha 48
php 08
pla 68
plp 28
rol 2a 26zp 36zp,x 2eabs 3eabs,x
ror 6a 66zp 76zp,x 6eabs 7eabs,x
rti 40
rts 60
sbc e9# e5zp f5zp,x edabs fdabs,x f9abs,y e1(zp,x) f1(zp),y
sec 38
sed f8
sei 78
sta 85zp 95zp,x 8dabs 9dabs,x 99abs,y 81(zp,x) 91(zp),y
stx 86zp 96zp,y 8eabs
sty 84zp 94zp,x 8cabs
tax aa
tay a8
tsx ba
txa 8a
txs 9a
tya 98`;

/* The instructions by their opcodes: a name, how it finds its operand, and its bytes. */
export const OPCODES = new Map(INSTRUCTIONS.trim().split('\n').flatMap((line) => {
  const [name, ...forms] = line.split(' ');
  return forms.map((form) => {
    const mode = form.slice(2);
    return [parseInt(form.slice(0, 2), 16), { name, mode, size: SIZES[mode] }];
  });
}));
