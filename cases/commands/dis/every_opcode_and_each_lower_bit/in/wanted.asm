HLT
integer 0x00000001
integer 0x00000002
integer 0x00000004
integer 0x00000008
integer 0x00000010
integer 0x00000020
integer 0x00000040
integer 0x00000080
integer 0x00000100
integer 0x00000200
integer 0x00000400
integer 0x00000800
integer 0x00001000
integer 0x00002000
integer 0x00004000
integer 0x00008000
integer 0x00010000
integer 0x00020000
integer 0x00040000
integer 0x00080000
integer 0x00100000
integer 0x00200000
integer 0x00400000
integer 0x00800000
integer 0x01000000
integer 0x02000000
integer 0xFFFFFFFE
WAIT
integer 0x04000001
integer 0x04000002
integer 0x04000004
integer 0x04000008
integer 0x04000010
integer 0x04000020
integer 0x04000040
integer 0x04000080
integer 0x04000100
integer 0x04000200
integer 0x04000400
integer 0x04000800
integer 0x04001000
integer 0x04002000
integer 0x04004000
integer 0x04008000
integer 0x04010000
integer 0x04020000
integer 0x04040000
integer 0x04080000
integer 0x04100000
integer 0x04200000
integer 0x04400000
integer 0x04800000
integer 0x05000000
integer 0x06000000
integer 0xFFFFFFFE
JMP R0
integer 0x08000001
integer 0x08000002
integer 0x08000004
integer 0x08000008
integer 0x08000010
integer 0x08000020
integer 0x08000040
integer 0x08000080
integer 0x08000100
integer 0x08000200
integer 0x08000400
integer 0x08000800
integer 0x08001000
integer 0x08002000
integer 0x08004000
integer 0x08008000
integer 0x08010000
integer 0x08020000
integer 0x08040000
integer 0x08080000
integer 0x08100000
JMP R1
JMP R2
JMP R4
JMP R8
JMP 0xFFFFFFFE
CALL R0
integer 0x0C000001
integer 0x0C000002
integer 0x0C000004
integer 0x0C000008
integer 0x0C000010
integer 0x0C000020
integer 0x0C000040
integer 0x0C000080
integer 0x0C000100
integer 0x0C000200
integer 0x0C000400
integer 0x0C000800
integer 0x0C001000
integer 0x0C002000
integer 0x0C004000
integer 0x0C008000
integer 0x0C010000
integer 0x0C020000
integer 0x0C040000
integer 0x0C080000
integer 0x0C100000
CALL R1
CALL R2
CALL R4
CALL R8
CALL 0xFFFFFFFE
RET
integer 0x10000001
integer 0x10000002
integer 0x10000004
integer 0x10000008
integer 0x10000010
integer 0x10000020
integer 0x10000040
integer 0x10000080
integer 0x10000100
integer 0x10000200
integer 0x10000400
integer 0x10000800
integer 0x10001000
integer 0x10002000
integer 0x10004000
integer 0x10008000
integer 0x10010000
integer 0x10020000
integer 0x10040000
integer 0x10080000
integer 0x10100000
integer 0x10200000
integer 0x10400000
integer 0x10800000
integer 0x11000000
integer 0x12000000
integer 0xFFFFFFFE
JT R0, R0
integer 0x14000001
integer 0x14000002
integer 0x14000004
integer 0x14000008
integer 0x14000010
integer 0x14000020
integer 0x14000040
integer 0x14000080
integer 0x14000100
integer 0x14000200
integer 0x14000400
integer 0x14000800
integer 0x14001000
integer 0x14002000
integer 0x14004000
integer 0x14008000
integer 0x14010000
JT R0, R1
JT R0, R2
JT R0, R4
JT R0, R8
JT R1, R0
JT R2, R0
JT R4, R0
JT R8, R0
JT R0, 0xFFFFFFFE
JF R0, R0
integer 0x18000001
integer 0x18000002
integer 0x18000004
integer 0x18000008
integer 0x18000010
integer 0x18000020
integer 0x18000040
integer 0x18000080
integer 0x18000100
integer 0x18000200
integer 0x18000400
integer 0x18000800
integer 0x18001000
integer 0x18002000
integer 0x18004000
integer 0x18008000
integer 0x18010000
JF R0, R1
JF R0, R2
JF R0, R4
JF R0, R8
JF R1, R0
JF R2, R0
JF R4, R0
JF R8, R0
JF R0, 0xFFFFFFFE
IEQ R0, R0
integer 0x1C000001
integer 0x1C000002
integer 0x1C000004
integer 0x1C000008
integer 0x1C000010
integer 0x1C000020
integer 0x1C000040
integer 0x1C000080
integer 0x1C000100
integer 0x1C000200
integer 0x1C000400
integer 0x1C000800
integer 0x1C001000
integer 0x1C002000
integer 0x1C004000
integer 0x1C008000
integer 0x1C010000
IEQ R0, R1
IEQ R0, R2
IEQ R0, R4
IEQ R0, R8
IEQ R1, R0
IEQ R2, R0
IEQ R4, R0
IEQ R8, R0
IEQ R0, 0xFFFFFFFE
INE R0, R0
integer 0x20000001
integer 0x20000002
integer 0x20000004
integer 0x20000008
integer 0x20000010
integer 0x20000020
integer 0x20000040
integer 0x20000080
integer 0x20000100
integer 0x20000200
integer 0x20000400
integer 0x20000800
integer 0x20001000
integer 0x20002000
integer 0x20004000
integer 0x20008000
integer 0x20010000
INE R0, R1
INE R0, R2
INE R0, R4
INE R0, R8
INE R1, R0
INE R2, R0
INE R4, R0
INE R8, R0
INE R0, 0xFFFFFFFE
IGT R0, R0
integer 0x24000001
integer 0x24000002
integer 0x24000004
integer 0x24000008
integer 0x24000010
integer 0x24000020
integer 0x24000040
integer 0x24000080
integer 0x24000100
integer 0x24000200
integer 0x24000400
integer 0x24000800
integer 0x24001000
integer 0x24002000
integer 0x24004000
integer 0x24008000
integer 0x24010000
IGT R0, R1
IGT R0, R2
IGT R0, R4
IGT R0, R8
IGT R1, R0
IGT R2, R0
IGT R4, R0
IGT R8, R0
IGT R0, 0xFFFFFFFE
IGE R0, R0
integer 0x28000001
integer 0x28000002
integer 0x28000004
integer 0x28000008
integer 0x28000010
integer 0x28000020
integer 0x28000040
integer 0x28000080
integer 0x28000100
integer 0x28000200
integer 0x28000400
integer 0x28000800
integer 0x28001000
integer 0x28002000
integer 0x28004000
integer 0x28008000
integer 0x28010000
IGE R0, R1
IGE R0, R2
IGE R0, R4
IGE R0, R8
IGE R1, R0
IGE R2, R0
IGE R4, R0
IGE R8, R0
IGE R0, 0xFFFFFFFE
ILT R0, R0
integer 0x2C000001
integer 0x2C000002
integer 0x2C000004
integer 0x2C000008
integer 0x2C000010
integer 0x2C000020
integer 0x2C000040
integer 0x2C000080
integer 0x2C000100
integer 0x2C000200
integer 0x2C000400
integer 0x2C000800
integer 0x2C001000
integer 0x2C002000
integer 0x2C004000
integer 0x2C008000
integer 0x2C010000
ILT R0, R1
ILT R0, R2
ILT R0, R4
ILT R0, R8
ILT R1, R0
ILT R2, R0
ILT R4, R0
ILT R8, R0
ILT R0, 0xFFFFFFFE
ILE R0, R0
integer 0x30000001
integer 0x30000002
integer 0x30000004
integer 0x30000008
integer 0x30000010
integer 0x30000020
integer 0x30000040
integer 0x30000080
integer 0x30000100
integer 0x30000200
integer 0x30000400
integer 0x30000800
integer 0x30001000
integer 0x30002000
integer 0x30004000
integer 0x30008000
integer 0x30010000
ILE R0, R1
ILE R0, R2
ILE R0, R4
ILE R0, R8
ILE R1, R0
ILE R2, R0
ILE R4, R0
ILE R8, R0
ILE R0, 0xFFFFFFFE
integer 0x34000000
integer 0x34000001
integer 0x34000002
integer 0x34000004
integer 0x34000008
integer 0x34000010
integer 0x34000020
integer 0x34000040
integer 0x34000080
integer 0x34000100
integer 0x34000200
integer 0x34000400
integer 0x34000800
integer 0x34001000
integer 0x34002000
integer 0x34004000
integer 0x34008000
integer 0x34010000
integer 0x34020000
integer 0x34040000
integer 0x34080000
integer 0x34100000
integer 0x34200000
integer 0x34400000
integer 0x34800000
integer 0x35000000
integer 0x36000000
integer 0xFFFFFFFE
integer 0x38000000
integer 0x38000001
integer 0x38000002
integer 0x38000004
integer 0x38000008
integer 0x38000010
integer 0x38000020
integer 0x38000040
integer 0x38000080
integer 0x38000100
integer 0x38000200
integer 0x38000400
integer 0x38000800
integer 0x38001000
integer 0x38002000
integer 0x38004000
integer 0x38008000
integer 0x38010000
integer 0x38020000
integer 0x38040000
integer 0x38080000
integer 0x38100000
integer 0x38200000
integer 0x38400000
integer 0x38800000
integer 0x39000000
integer 0x3A000000
integer 0xFFFFFFFE
integer 0x3C000000
integer 0x3C000001
integer 0x3C000002
integer 0x3C000004
integer 0x3C000008
integer 0x3C000010
integer 0x3C000020
integer 0x3C000040
integer 0x3C000080
integer 0x3C000100
integer 0x3C000200
integer 0x3C000400
integer 0x3C000800
integer 0x3C001000
integer 0x3C002000
integer 0x3C004000
integer 0x3C008000
integer 0x3C010000
integer 0x3C020000
integer 0x3C040000
integer 0x3C080000
integer 0x3C100000
integer 0x3C200000
integer 0x3C400000
integer 0x3C800000
integer 0x3D000000
integer 0x3E000000
integer 0xFFFFFFFE
integer 0x40000000
integer 0x40000001
integer 0x40000002
integer 0x40000004
integer 0x40000008
integer 0x40000010
integer 0x40000020
integer 0x40000040
integer 0x40000080
integer 0x40000100
integer 0x40000200
integer 0x40000400
integer 0x40000800
integer 0x40001000
integer 0x40002000
integer 0x40004000
integer 0x40008000
integer 0x40010000
integer 0x40020000
integer 0x40040000
integer 0x40080000
integer 0x40100000
integer 0x40200000
integer 0x40400000
integer 0x40800000
integer 0x41000000
integer 0x42000000
integer 0xFFFFFFFE
integer 0x44000000
integer 0x44000001
integer 0x44000002
integer 0x44000004
integer 0x44000008
integer 0x44000010
integer 0x44000020
integer 0x44000040
integer 0x44000080
integer 0x44000100
integer 0x44000200
integer 0x44000400
integer 0x44000800
integer 0x44001000
integer 0x44002000
integer 0x44004000
integer 0x44008000
integer 0x44010000
integer 0x44020000
integer 0x44040000
integer 0x44080000
integer 0x44100000
integer 0x44200000
integer 0x44400000
integer 0x44800000
integer 0x45000000
integer 0x46000000
integer 0xFFFFFFFE
integer 0x48000000
integer 0x48000001
integer 0x48000002
integer 0x48000004
integer 0x48000008
integer 0x48000010
integer 0x48000020
integer 0x48000040
integer 0x48000080
integer 0x48000100
integer 0x48000200
integer 0x48000400
integer 0x48000800
integer 0x48001000
integer 0x48002000
integer 0x48004000
integer 0x48008000
integer 0x48010000
integer 0x48020000
integer 0x48040000
integer 0x48080000
integer 0x48100000
integer 0x48200000
integer 0x48400000
integer 0x48800000
integer 0x49000000
integer 0x4A000000
integer 0xFFFFFFFE
integer 0x4C000000
integer 0x4C000001
integer 0x4C000002
integer 0x4C000004
integer 0x4C000008
integer 0x4C000010
integer 0x4C000020
integer 0x4C000040
integer 0x4C000080
integer 0x4C000100
integer 0x4C000200
integer 0x4C000400
integer 0x4C000800
integer 0x4C001000
integer 0x4C002000
MOV R0, R0
integer 0x4C008000
integer 0x4C010000
integer 0x4C020000
integer 0x4C040000
integer 0x4C080000
integer 0x4C100000
integer 0x4C200000
integer 0x4C400000
integer 0x4C800000
integer 0x4D000000
MOV R0, 0xFFFFFFFE
integer 0x50000000
integer 0x50000001
integer 0x50000002
integer 0x50000004
integer 0x50000008
integer 0x50000010
integer 0x50000020
integer 0x50000040
integer 0x50000080
integer 0x50000100
integer 0x50000200
integer 0x50000400
integer 0x50000800
integer 0x50001000
integer 0x50002000
integer 0x50004000
integer 0x50008000
integer 0x50010000
integer 0x50020000
integer 0x50040000
integer 0x50080000
integer 0x50100000
integer 0x50200000
integer 0x50400000
integer 0x50800000
integer 0x51000000
integer 0x52000000
integer 0xFFFFFFFE
PUSH R0
integer 0x54000001
integer 0x54000002
integer 0x54000004
integer 0x54000008
integer 0x54000010
integer 0x54000020
integer 0x54000040
integer 0x54000080
integer 0x54000100
integer 0x54000200
integer 0x54000400
integer 0x54000800
integer 0x54001000
integer 0x54002000
integer 0x54004000
integer 0x54008000
integer 0x54010000
integer 0x54020000
integer 0x54040000
integer 0x54080000
integer 0x54100000
PUSH R1
PUSH R2
PUSH R4
PUSH R8
integer 0x56000000
integer 0xFFFFFFFE
POP R0
integer 0x58000001
integer 0x58000002
integer 0x58000004
integer 0x58000008
integer 0x58000010
integer 0x58000020
integer 0x58000040
integer 0x58000080
integer 0x58000100
integer 0x58000200
integer 0x58000400
integer 0x58000800
integer 0x58001000
integer 0x58002000
integer 0x58004000
integer 0x58008000
integer 0x58010000
integer 0x58020000
integer 0x58040000
integer 0x58080000
integer 0x58100000
POP R1
POP R2
POP R4
POP R8
integer 0x5A000000
integer 0xFFFFFFFE
IN R0, 0x000
IN R0, 0x001
IN R0, 0x002
IN R0, 0x004
IN R0, 0x008
IN R0, 0x010
IN R0, 0x020
IN R0, 0x040
IN R0, 0x080
IN R0, 0x100
IN R0, 0x200
IN R0, 0x400
IN R0, 0x800
IN R0, 0x1000
IN R0, 0x2000
integer 0x5C004000
integer 0x5C008000
integer 0x5C010000
integer 0x5C020000
integer 0x5C040000
integer 0x5C080000
integer 0x5C100000
IN R1, 0x000
IN R2, 0x000
IN R4, 0x000
IN R8, 0x000
integer 0x5E000000
integer 0xFFFFFFFE
OUT 0x000, R0
OUT 0x001, R0
OUT 0x002, R0
OUT 0x004, R0
OUT 0x008, R0
OUT 0x010, R0
OUT 0x020, R0
OUT 0x040, R0
OUT 0x080, R0
OUT 0x100, R0
OUT 0x200, R0
OUT 0x400, R0
OUT 0x800, R0
OUT 0x1000, R0
OUT 0x2000, R0
integer 0x60004000
integer 0x60008000
integer 0x60010000
integer 0x60020000
integer 0x60040000
integer 0x60080000
integer 0x60100000
OUT 0x000, R1
OUT 0x000, R2
OUT 0x000, R4
OUT 0x000, R8
OUT 0x000, 0xFFFFFFFE
MOVS
integer 0x64000001
integer 0x64000002
integer 0x64000004
integer 0x64000008
integer 0x64000010
integer 0x64000020
integer 0x64000040
integer 0x64000080
integer 0x64000100
integer 0x64000200
integer 0x64000400
integer 0x64000800
integer 0x64001000
integer 0x64002000
integer 0x64004000
integer 0x64008000
integer 0x64010000
integer 0x64020000
integer 0x64040000
integer 0x64080000
integer 0x64100000
integer 0x64200000
integer 0x64400000
integer 0x64800000
integer 0x65000000
integer 0x66000000
integer 0xFFFFFFFE
SETS
integer 0x68000001
integer 0x68000002
integer 0x68000004
integer 0x68000008
integer 0x68000010
integer 0x68000020
integer 0x68000040
integer 0x68000080
integer 0x68000100
integer 0x68000200
integer 0x68000400
integer 0x68000800
integer 0x68001000
integer 0x68002000
integer 0x68004000
integer 0x68008000
integer 0x68010000
integer 0x68020000
integer 0x68040000
integer 0x68080000
integer 0x68100000
integer 0x68200000
integer 0x68400000
integer 0x68800000
integer 0x69000000
integer 0x6A000000
integer 0xFFFFFFFE
CMPS R0
integer 0x6C000001
integer 0x6C000002
integer 0x6C000004
integer 0x6C000008
integer 0x6C000010
integer 0x6C000020
integer 0x6C000040
integer 0x6C000080
integer 0x6C000100
integer 0x6C000200
integer 0x6C000400
integer 0x6C000800
integer 0x6C001000
integer 0x6C002000
integer 0x6C004000
integer 0x6C008000
integer 0x6C010000
integer 0x6C020000
integer 0x6C040000
integer 0x6C080000
integer 0x6C100000
CMPS R1
CMPS R2
CMPS R4
CMPS R8
integer 0x6E000000
integer 0xFFFFFFFE
integer 0x70000000
integer 0x70000001
integer 0x70000002
integer 0x70000004
integer 0x70000008
integer 0x70000010
integer 0x70000020
integer 0x70000040
integer 0x70000080
integer 0x70000100
integer 0x70000200
integer 0x70000400
integer 0x70000800
integer 0x70001000
integer 0x70002000
integer 0x70004000
integer 0x70008000
integer 0x70010000
integer 0x70020000
integer 0x70040000
integer 0x70080000
integer 0x70100000
integer 0x70200000
integer 0x70400000
integer 0x70800000
integer 0x71000000
integer 0x72000000
integer 0xFFFFFFFE
integer 0x74000000
integer 0x74000001
integer 0x74000002
integer 0x74000004
integer 0x74000008
integer 0x74000010
integer 0x74000020
integer 0x74000040
integer 0x74000080
integer 0x74000100
integer 0x74000200
integer 0x74000400
integer 0x74000800
integer 0x74001000
integer 0x74002000
integer 0x74004000
integer 0x74008000
integer 0x74010000
integer 0x74020000
integer 0x74040000
integer 0x74080000
integer 0x74100000
integer 0x74200000
integer 0x74400000
integer 0x74800000
integer 0x75000000
integer 0x76000000
integer 0xFFFFFFFE
CIB R0
integer 0x78000001
integer 0x78000002
integer 0x78000004
integer 0x78000008
integer 0x78000010
integer 0x78000020
integer 0x78000040
integer 0x78000080
integer 0x78000100
integer 0x78000200
integer 0x78000400
integer 0x78000800
integer 0x78001000
integer 0x78002000
integer 0x78004000
integer 0x78008000
integer 0x78010000
integer 0x78020000
integer 0x78040000
integer 0x78080000
integer 0x78100000
CIB R1
CIB R2
CIB R4
CIB R8
integer 0x7A000000
integer 0xFFFFFFFE
integer 0x7C000000
integer 0x7C000001
integer 0x7C000002
integer 0x7C000004
integer 0x7C000008
integer 0x7C000010
integer 0x7C000020
integer 0x7C000040
integer 0x7C000080
integer 0x7C000100
integer 0x7C000200
integer 0x7C000400
integer 0x7C000800
integer 0x7C001000
integer 0x7C002000
integer 0x7C004000
integer 0x7C008000
integer 0x7C010000
integer 0x7C020000
integer 0x7C040000
integer 0x7C080000
integer 0x7C100000
integer 0x7C200000
integer 0x7C400000
integer 0x7C800000
integer 0x7D000000
integer 0x7E000000
integer 0xFFFFFFFE
NOT R0
integer 0x80000001
integer 0x80000002
integer 0x80000004
integer 0x80000008
integer 0x80000010
integer 0x80000020
integer 0x80000040
integer 0x80000080
integer 0x80000100
integer 0x80000200
integer 0x80000400
integer 0x80000800
integer 0x80001000
integer 0x80002000
integer 0x80004000
integer 0x80008000
integer 0x80010000
integer 0x80020000
integer 0x80040000
integer 0x80080000
integer 0x80100000
NOT R1
NOT R2
NOT R4
NOT R8
integer 0x82000000
integer 0xFFFFFFFE
AND R0, R0
integer 0x84000001
integer 0x84000002
integer 0x84000004
integer 0x84000008
integer 0x84000010
integer 0x84000020
integer 0x84000040
integer 0x84000080
integer 0x84000100
integer 0x84000200
integer 0x84000400
integer 0x84000800
integer 0x84001000
integer 0x84002000
integer 0x84004000
integer 0x84008000
integer 0x84010000
AND R0, R1
AND R0, R2
AND R0, R4
AND R0, R8
AND R1, R0
AND R2, R0
AND R4, R0
AND R8, R0
AND R0, 0xFFFFFFFE
OR R0, R0
integer 0x88000001
integer 0x88000002
integer 0x88000004
integer 0x88000008
integer 0x88000010
integer 0x88000020
integer 0x88000040
integer 0x88000080
integer 0x88000100
integer 0x88000200
integer 0x88000400
integer 0x88000800
integer 0x88001000
integer 0x88002000
integer 0x88004000
integer 0x88008000
integer 0x88010000
OR R0, R1
OR R0, R2
OR R0, R4
OR R0, R8
OR R1, R0
OR R2, R0
OR R4, R0
OR R8, R0
OR R0, 0xFFFFFFFE
XOR R0, R0
integer 0x8C000001
integer 0x8C000002
integer 0x8C000004
integer 0x8C000008
integer 0x8C000010
integer 0x8C000020
integer 0x8C000040
integer 0x8C000080
integer 0x8C000100
integer 0x8C000200
integer 0x8C000400
integer 0x8C000800
integer 0x8C001000
integer 0x8C002000
integer 0x8C004000
integer 0x8C008000
integer 0x8C010000
XOR R0, R1
XOR R0, R2
XOR R0, R4
XOR R0, R8
XOR R1, R0
XOR R2, R0
XOR R4, R0
XOR R8, R0
XOR R0, 0xFFFFFFFE
BNOT R0
integer 0x90000001
integer 0x90000002
integer 0x90000004
integer 0x90000008
integer 0x90000010
integer 0x90000020
integer 0x90000040
integer 0x90000080
integer 0x90000100
integer 0x90000200
integer 0x90000400
integer 0x90000800
integer 0x90001000
integer 0x90002000
integer 0x90004000
integer 0x90008000
integer 0x90010000
integer 0x90020000
integer 0x90040000
integer 0x90080000
integer 0x90100000
BNOT R1
BNOT R2
BNOT R4
BNOT R8
integer 0x92000000
integer 0xFFFFFFFE
SHL R0, R0
integer 0x94000001
integer 0x94000002
integer 0x94000004
integer 0x94000008
integer 0x94000010
integer 0x94000020
integer 0x94000040
integer 0x94000080
integer 0x94000100
integer 0x94000200
integer 0x94000400
integer 0x94000800
integer 0x94001000
integer 0x94002000
integer 0x94004000
integer 0x94008000
integer 0x94010000
SHL R0, R1
SHL R0, R2
SHL R0, R4
SHL R0, R8
SHL R1, R0
SHL R2, R0
SHL R4, R0
SHL R8, R0
SHL R0, 0xFFFFFFFE
IADD R0, R0
integer 0x98000001
integer 0x98000002
integer 0x98000004
integer 0x98000008
integer 0x98000010
integer 0x98000020
integer 0x98000040
integer 0x98000080
integer 0x98000100
integer 0x98000200
integer 0x98000400
integer 0x98000800
integer 0x98001000
integer 0x98002000
integer 0x98004000
integer 0x98008000
integer 0x98010000
IADD R0, R1
IADD R0, R2
IADD R0, R4
IADD R0, R8
IADD R1, R0
IADD R2, R0
IADD R4, R0
IADD R8, R0
IADD R0, 0xFFFFFFFE
ISUB R0, R0
integer 0x9C000001
integer 0x9C000002
integer 0x9C000004
integer 0x9C000008
integer 0x9C000010
integer 0x9C000020
integer 0x9C000040
integer 0x9C000080
integer 0x9C000100
integer 0x9C000200
integer 0x9C000400
integer 0x9C000800
integer 0x9C001000
integer 0x9C002000
integer 0x9C004000
integer 0x9C008000
integer 0x9C010000
ISUB R0, R1
ISUB R0, R2
ISUB R0, R4
ISUB R0, R8
ISUB R1, R0
ISUB R2, R0
ISUB R4, R0
ISUB R8, R0
ISUB R0, 0xFFFFFFFE
IMUL R0, R0
integer 0xA0000001
integer 0xA0000002
integer 0xA0000004
integer 0xA0000008
integer 0xA0000010
integer 0xA0000020
integer 0xA0000040
integer 0xA0000080
integer 0xA0000100
integer 0xA0000200
integer 0xA0000400
integer 0xA0000800
integer 0xA0001000
integer 0xA0002000
integer 0xA0004000
integer 0xA0008000
integer 0xA0010000
IMUL R0, R1
IMUL R0, R2
IMUL R0, R4
IMUL R0, R8
IMUL R1, R0
IMUL R2, R0
IMUL R4, R0
IMUL R8, R0
IMUL R0, 0xFFFFFFFE
IDIV R0, R0
integer 0xA4000001
integer 0xA4000002
integer 0xA4000004
integer 0xA4000008
integer 0xA4000010
integer 0xA4000020
integer 0xA4000040
integer 0xA4000080
integer 0xA4000100
integer 0xA4000200
integer 0xA4000400
integer 0xA4000800
integer 0xA4001000
integer 0xA4002000
integer 0xA4004000
integer 0xA4008000
integer 0xA4010000
IDIV R0, R1
IDIV R0, R2
IDIV R0, R4
IDIV R0, R8
IDIV R1, R0
IDIV R2, R0
IDIV R4, R0
IDIV R8, R0
IDIV R0, 0xFFFFFFFE
IMOD R0, R0
integer 0xA8000001
integer 0xA8000002
integer 0xA8000004
integer 0xA8000008
integer 0xA8000010
integer 0xA8000020
integer 0xA8000040
integer 0xA8000080
integer 0xA8000100
integer 0xA8000200
integer 0xA8000400
integer 0xA8000800
integer 0xA8001000
integer 0xA8002000
integer 0xA8004000
integer 0xA8008000
integer 0xA8010000
IMOD R0, R1
IMOD R0, R2
IMOD R0, R4
IMOD R0, R8
IMOD R1, R0
IMOD R2, R0
IMOD R4, R0
IMOD R8, R0
IMOD R0, 0xFFFFFFFE
ISGN R0
integer 0xAC000001
integer 0xAC000002
integer 0xAC000004
integer 0xAC000008
integer 0xAC000010
integer 0xAC000020
integer 0xAC000040
integer 0xAC000080
integer 0xAC000100
integer 0xAC000200
integer 0xAC000400
integer 0xAC000800
integer 0xAC001000
integer 0xAC002000
integer 0xAC004000
integer 0xAC008000
integer 0xAC010000
integer 0xAC020000
integer 0xAC040000
integer 0xAC080000
integer 0xAC100000
ISGN R1
ISGN R2
ISGN R4
ISGN R8
integer 0xAE000000
integer 0xFFFFFFFE
IMIN R0, R0
integer 0xB0000001
integer 0xB0000002
integer 0xB0000004
integer 0xB0000008
integer 0xB0000010
integer 0xB0000020
integer 0xB0000040
integer 0xB0000080
integer 0xB0000100
integer 0xB0000200
integer 0xB0000400
integer 0xB0000800
integer 0xB0001000
integer 0xB0002000
integer 0xB0004000
integer 0xB0008000
integer 0xB0010000
IMIN R0, R1
IMIN R0, R2
IMIN R0, R4
IMIN R0, R8
IMIN R1, R0
IMIN R2, R0
IMIN R4, R0
IMIN R8, R0
IMIN R0, 0xFFFFFFFE
IMAX R0, R0
integer 0xB4000001
integer 0xB4000002
integer 0xB4000004
integer 0xB4000008
integer 0xB4000010
integer 0xB4000020
integer 0xB4000040
integer 0xB4000080
integer 0xB4000100
integer 0xB4000200
integer 0xB4000400
integer 0xB4000800
integer 0xB4001000
integer 0xB4002000
integer 0xB4004000
integer 0xB4008000
integer 0xB4010000
IMAX R0, R1
IMAX R0, R2
IMAX R0, R4
IMAX R0, R8
IMAX R1, R0
IMAX R2, R0
IMAX R4, R0
IMAX R8, R0
IMAX R0, 0xFFFFFFFE
IABS R0
integer 0xB8000001
integer 0xB8000002
integer 0xB8000004
integer 0xB8000008
integer 0xB8000010
integer 0xB8000020
integer 0xB8000040
integer 0xB8000080
integer 0xB8000100
integer 0xB8000200
integer 0xB8000400
integer 0xB8000800
integer 0xB8001000
integer 0xB8002000
integer 0xB8004000
integer 0xB8008000
integer 0xB8010000
integer 0xB8020000
integer 0xB8040000
integer 0xB8080000
integer 0xB8100000
IABS R1
IABS R2
IABS R4
IABS R8
integer 0xBA000000
integer 0xFFFFFFFE
integer 0xBC000000
integer 0xBC000001
integer 0xBC000002
integer 0xBC000004
integer 0xBC000008
integer 0xBC000010
integer 0xBC000020
integer 0xBC000040
integer 0xBC000080
integer 0xBC000100
integer 0xBC000200
integer 0xBC000400
integer 0xBC000800
integer 0xBC001000
integer 0xBC002000
integer 0xBC004000
integer 0xBC008000
integer 0xBC010000
integer 0xBC020000
integer 0xBC040000
integer 0xBC080000
integer 0xBC100000
integer 0xBC200000
integer 0xBC400000
integer 0xBC800000
integer 0xBD000000
integer 0xBE000000
integer 0xFFFFFFFE
integer 0xC0000000
integer 0xC0000001
integer 0xC0000002
integer 0xC0000004
integer 0xC0000008
integer 0xC0000010
integer 0xC0000020
integer 0xC0000040
integer 0xC0000080
integer 0xC0000100
integer 0xC0000200
integer 0xC0000400
integer 0xC0000800
integer 0xC0001000
integer 0xC0002000
integer 0xC0004000
integer 0xC0008000
integer 0xC0010000
integer 0xC0020000
integer 0xC0040000
integer 0xC0080000
integer 0xC0100000
integer 0xC0200000
integer 0xC0400000
integer 0xC0800000
integer 0xC1000000
integer 0xC2000000
integer 0xFFFFFFFE
integer 0xC4000000
integer 0xC4000001
integer 0xC4000002
integer 0xC4000004
integer 0xC4000008
integer 0xC4000010
integer 0xC4000020
integer 0xC4000040
integer 0xC4000080
integer 0xC4000100
integer 0xC4000200
integer 0xC4000400
integer 0xC4000800
integer 0xC4001000
integer 0xC4002000
integer 0xC4004000
integer 0xC4008000
integer 0xC4010000
integer 0xC4020000
integer 0xC4040000
integer 0xC4080000
integer 0xC4100000
integer 0xC4200000
integer 0xC4400000
integer 0xC4800000
integer 0xC5000000
integer 0xC6000000
integer 0xFFFFFFFE
integer 0xC8000000
integer 0xC8000001
integer 0xC8000002
integer 0xC8000004
integer 0xC8000008
integer 0xC8000010
integer 0xC8000020
integer 0xC8000040
integer 0xC8000080
integer 0xC8000100
integer 0xC8000200
integer 0xC8000400
integer 0xC8000800
integer 0xC8001000
integer 0xC8002000
integer 0xC8004000
integer 0xC8008000
integer 0xC8010000
integer 0xC8020000
integer 0xC8040000
integer 0xC8080000
integer 0xC8100000
integer 0xC8200000
integer 0xC8400000
integer 0xC8800000
integer 0xC9000000
integer 0xCA000000
integer 0xFFFFFFFE
integer 0xCC000000
integer 0xCC000001
integer 0xCC000002
integer 0xCC000004
integer 0xCC000008
integer 0xCC000010
integer 0xCC000020
integer 0xCC000040
integer 0xCC000080
integer 0xCC000100
integer 0xCC000200
integer 0xCC000400
integer 0xCC000800
integer 0xCC001000
integer 0xCC002000
integer 0xCC004000
integer 0xCC008000
integer 0xCC010000
integer 0xCC020000
integer 0xCC040000
integer 0xCC080000
integer 0xCC100000
integer 0xCC200000
integer 0xCC400000
integer 0xCC800000
integer 0xCD000000
integer 0xCE000000
integer 0xFFFFFFFE
integer 0xD0000000
integer 0xD0000001
integer 0xD0000002
integer 0xD0000004
integer 0xD0000008
integer 0xD0000010
integer 0xD0000020
integer 0xD0000040
integer 0xD0000080
integer 0xD0000100
integer 0xD0000200
integer 0xD0000400
integer 0xD0000800
integer 0xD0001000
integer 0xD0002000
integer 0xD0004000
integer 0xD0008000
integer 0xD0010000
integer 0xD0020000
integer 0xD0040000
integer 0xD0080000
integer 0xD0100000
integer 0xD0200000
integer 0xD0400000
integer 0xD0800000
integer 0xD1000000
integer 0xD2000000
integer 0xFFFFFFFE
integer 0xD4000000
integer 0xD4000001
integer 0xD4000002
integer 0xD4000004
integer 0xD4000008
integer 0xD4000010
integer 0xD4000020
integer 0xD4000040
integer 0xD4000080
integer 0xD4000100
integer 0xD4000200
integer 0xD4000400
integer 0xD4000800
integer 0xD4001000
integer 0xD4002000
integer 0xD4004000
integer 0xD4008000
integer 0xD4010000
integer 0xD4020000
integer 0xD4040000
integer 0xD4080000
integer 0xD4100000
integer 0xD4200000
integer 0xD4400000
integer 0xD4800000
integer 0xD5000000
integer 0xD6000000
integer 0xFFFFFFFE
integer 0xD8000000
integer 0xD8000001
integer 0xD8000002
integer 0xD8000004
integer 0xD8000008
integer 0xD8000010
integer 0xD8000020
integer 0xD8000040
integer 0xD8000080
integer 0xD8000100
integer 0xD8000200
integer 0xD8000400
integer 0xD8000800
integer 0xD8001000
integer 0xD8002000
integer 0xD8004000
integer 0xD8008000
integer 0xD8010000
integer 0xD8020000
integer 0xD8040000
integer 0xD8080000
integer 0xD8100000
integer 0xD8200000
integer 0xD8400000
integer 0xD8800000
integer 0xD9000000
integer 0xDA000000
integer 0xFFFFFFFE
integer 0xDC000000
integer 0xDC000001
integer 0xDC000002
integer 0xDC000004
integer 0xDC000008
integer 0xDC000010
integer 0xDC000020
integer 0xDC000040
integer 0xDC000080
integer 0xDC000100
integer 0xDC000200
integer 0xDC000400
integer 0xDC000800
integer 0xDC001000
integer 0xDC002000
integer 0xDC004000
integer 0xDC008000
integer 0xDC010000
integer 0xDC020000
integer 0xDC040000
integer 0xDC080000
integer 0xDC100000
integer 0xDC200000
integer 0xDC400000
integer 0xDC800000
integer 0xDD000000
integer 0xDE000000
integer 0xFFFFFFFE
integer 0xE0000000
integer 0xE0000001
integer 0xE0000002
integer 0xE0000004
integer 0xE0000008
integer 0xE0000010
integer 0xE0000020
integer 0xE0000040
integer 0xE0000080
integer 0xE0000100
integer 0xE0000200
integer 0xE0000400
integer 0xE0000800
integer 0xE0001000
integer 0xE0002000
integer 0xE0004000
integer 0xE0008000
integer 0xE0010000
integer 0xE0020000
integer 0xE0040000
integer 0xE0080000
integer 0xE0100000
integer 0xE0200000
integer 0xE0400000
integer 0xE0800000
integer 0xE1000000
integer 0xE2000000
integer 0xFFFFFFFE
integer 0xE4000000
integer 0xE4000001
integer 0xE4000002
integer 0xE4000004
integer 0xE4000008
integer 0xE4000010
integer 0xE4000020
integer 0xE4000040
integer 0xE4000080
integer 0xE4000100
integer 0xE4000200
integer 0xE4000400
integer 0xE4000800
integer 0xE4001000
integer 0xE4002000
integer 0xE4004000
integer 0xE4008000
integer 0xE4010000
integer 0xE4020000
integer 0xE4040000
integer 0xE4080000
integer 0xE4100000
integer 0xE4200000
integer 0xE4400000
integer 0xE4800000
integer 0xE5000000
integer 0xE6000000
integer 0xFFFFFFFE
integer 0xE8000000
integer 0xE8000001
integer 0xE8000002
integer 0xE8000004
integer 0xE8000008
integer 0xE8000010
integer 0xE8000020
integer 0xE8000040
integer 0xE8000080
integer 0xE8000100
integer 0xE8000200
integer 0xE8000400
integer 0xE8000800
integer 0xE8001000
integer 0xE8002000
integer 0xE8004000
integer 0xE8008000
integer 0xE8010000
integer 0xE8020000
integer 0xE8040000
integer 0xE8080000
integer 0xE8100000
integer 0xE8200000
integer 0xE8400000
integer 0xE8800000
integer 0xE9000000
integer 0xEA000000
integer 0xFFFFFFFE
integer 0xEC000000
integer 0xEC000001
integer 0xEC000002
integer 0xEC000004
integer 0xEC000008
integer 0xEC000010
integer 0xEC000020
integer 0xEC000040
integer 0xEC000080
integer 0xEC000100
integer 0xEC000200
integer 0xEC000400
integer 0xEC000800
integer 0xEC001000
integer 0xEC002000
integer 0xEC004000
integer 0xEC008000
integer 0xEC010000
integer 0xEC020000
integer 0xEC040000
integer 0xEC080000
integer 0xEC100000
integer 0xEC200000
integer 0xEC400000
integer 0xEC800000
integer 0xED000000
integer 0xEE000000
integer 0xFFFFFFFE
integer 0xF0000000
integer 0xF0000001
integer 0xF0000002
integer 0xF0000004
integer 0xF0000008
integer 0xF0000010
integer 0xF0000020
integer 0xF0000040
integer 0xF0000080
integer 0xF0000100
integer 0xF0000200
integer 0xF0000400
integer 0xF0000800
integer 0xF0001000
integer 0xF0002000
integer 0xF0004000
integer 0xF0008000
integer 0xF0010000
integer 0xF0020000
integer 0xF0040000
integer 0xF0080000
integer 0xF0100000
integer 0xF0200000
integer 0xF0400000
integer 0xF0800000
integer 0xF1000000
integer 0xF2000000
integer 0xFFFFFFFE
integer 0xF4000000
integer 0xF4000001
integer 0xF4000002
integer 0xF4000004
integer 0xF4000008
integer 0xF4000010
integer 0xF4000020
integer 0xF4000040
integer 0xF4000080
integer 0xF4000100
integer 0xF4000200
integer 0xF4000400
integer 0xF4000800
integer 0xF4001000
integer 0xF4002000
integer 0xF4004000
integer 0xF4008000
integer 0xF4010000
integer 0xF4020000
integer 0xF4040000
integer 0xF4080000
integer 0xF4100000
integer 0xF4200000
integer 0xF4400000
integer 0xF4800000
integer 0xF5000000
integer 0xF6000000
integer 0xFFFFFFFE
integer 0xF8000000
integer 0xF8000001
integer 0xF8000002
integer 0xF8000004
integer 0xF8000008
integer 0xF8000010
integer 0xF8000020
integer 0xF8000040
integer 0xF8000080
integer 0xF8000100
integer 0xF8000200
integer 0xF8000400
integer 0xF8000800
integer 0xF8001000
integer 0xF8002000
integer 0xF8004000
integer 0xF8008000
integer 0xF8010000
integer 0xF8020000
integer 0xF8040000
integer 0xF8080000
integer 0xF8100000
integer 0xF8200000
integer 0xF8400000
integer 0xF8800000
integer 0xF9000000
integer 0xFA000000
integer 0xFFFFFFFE
integer 0xFC000000
integer 0xFC000001
integer 0xFC000002
integer 0xFC000004
integer 0xFC000008
integer 0xFC000010
integer 0xFC000020
integer 0xFC000040
integer 0xFC000080
integer 0xFC000100
integer 0xFC000200
integer 0xFC000400
integer 0xFC000800
integer 0xFC001000
integer 0xFC002000
integer 0xFC004000
integer 0xFC008000
integer 0xFC010000
integer 0xFC020000
integer 0xFC040000
integer 0xFC080000
integer 0xFC100000
integer 0xFC200000
integer 0xFC400000
integer 0xFC800000
integer 0xFD000000
integer 0xFE000000
integer 0xFFFFFFFE
