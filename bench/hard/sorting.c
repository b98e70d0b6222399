/* Two ways to sort bytes, by insertion and by exchanging neighbours: do they give the same? */
#include <assert.h>

unsigned char nondet_any(void);

int main(void)
{
  unsigned char one[BYTES], other[BYTES];
  for (int place = 0; place < BYTES; place++)
    one[place] = other[place] = nondet_any();
  for (int end = 1; end < BYTES; end++) {
    unsigned char moved = one[end];
    int place = end;
    for (; place > 0 && one[place - 1] > moved; place--)
      one[place] = one[place - 1];
    one[place] = moved;
  }
  for (int end = BYTES - 1; end > 0; end--)
    for (int place = 0; place < end; place++)
      if (other[place] > other[place + 1]) {
        unsigned char moved = other[place];
        other[place] = other[place + 1];
        other[place + 1] = moved;
      }
  for (int place = 0; place < BYTES; place++)
    assert(one[place] == other[place]);
}
