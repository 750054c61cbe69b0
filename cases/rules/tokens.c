// Comments may hold any byte, é and @ among them. \
int first_of_its_line;
/* so may these, over
   several lines: "not a text, 'not a character */
int* text = "\n\t\r\0\\\'\"\x41\xfF and é @ // /* no comment";
int[9] characters = { 'a', '"', '\'', '\\', '\n', '\0', '\x7f', '@', ' ' };
int[6] numbers = { 0, 4294967295, 0xFFFFFFFF, 0x00aBcDeF, 08, 000000000000000000007 };
int in_two \
    , lines;
int \
joined;
int a=1+2-3*4/5%6<<7>>8&9|10^11;int/**/b;

void main() {
    a=-+-1;
    joined=1;
    b=a+++b;
    a <<= 1; a >>= 1; a &= 1; a |= 1; a ^= 1; a += 1; a -= 1; a *= 1; a /= 1; a %= 1;
}
