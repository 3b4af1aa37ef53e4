/* liquid-dsp's soft decoder of its own (8,4) code, taken where its header is installed (Debian's libliquid-dev). It searches the sixteen
   codewords; two blocks of eight soft bits make a byte. */
#include <liquid/liquid.h>

int liquid_blocks(const unsigned char *soft, unsigned bytes, unsigned char *out) {
    static fec decoder;
    if (!decoder) decoder = fec_create(LIQUID_FEC_HAMMING84, NULL);
    return fec_decode_soft(decoder, bytes, (unsigned char *)soft, out);
}
