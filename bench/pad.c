/* Moves what is linked behind it by PAD bytes, so that the benchmark sees the library's code in several places: where a
   short loop happens to lie can change its time by half and more, and says nothing about the code. */
#define TEXT(number) #number
#define SKIP(number) __asm__(".text\n.skip " TEXT(number) ", 0x90")
SKIP(PAD);
