/* CRC-32 by a table. */

static unsigned table[256];
static unsigned char text[8192];

int work(void)
{
	for (unsigned n = 0; n < 256; n++) {
		unsigned rest = n;
		for (int bit = 0; bit < 8; bit++)
			rest = rest & 1 ? 0xedb88320 ^ rest >> 1 : rest >> 1;
		table[n] = rest;
	}
	unsigned sum = ~0u;
	for (int round = 0; round < 12; round++)
		for (unsigned i = 0; i < sizeof text; i++) {
			text[i] += i + round;
			sum = table[(sum ^ text[i]) & 255] ^ sum >> 8;
		}
	return ~sum;
}
