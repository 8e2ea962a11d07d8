/*
 * Compares the processor's instructions with the functions that are proved to be their definitions: crates/instruction_c, built as a
 * hardware build has it (instruction_..), and as it stands (defined_..). Tried are every state of one byte under a key of zeros, pairs of
 * single bits for the products, and random operands; and AES over both.
 */
#include <stdbool.h>
#include <stdint.h>
#include <stdio.h>
#include <string.h>

#define RANDOM 200000
#define KEYS 2000

extern uint8_t perdoaze_has_instructions;
bool instruction_presence(void);
bool defined_presence(void);

/* an instruction as a function that changes its first operand */
typedef void instruction(uint8_t first[16], const uint8_t second[16]);
typedef void whole_cipher(const uint8_t *key, size_t length, uint8_t blocks[8][16]);
typedef void one_each(const uint8_t *key, size_t length, uint8_t sealed[16], uint8_t unsealed[16]);

#define BOTH(name) extern instruction instruction_##name, defined_##name;
BOTH(aesenc) BOTH(aesenclast) BOTH(aesdec) BOTH(aesdeclast) BOTH(aesimc)
BOTH(clmul_low_low) BOTH(clmul_high_low) BOTH(clmul_low_high) BOTH(clmul_high_high)
extern whole_cipher instruction_seal, defined_seal, instruction_unseal, defined_unseal;
extern one_each instruction_one_each, defined_one_each;

static const struct {
	const char *name;
	instruction *made, *defined;
	bool is_product;
} pairs[] = {
#define PAIR(name, is_product) { #name, instruction_##name, defined_##name, is_product }
	PAIR(aesenc, false), PAIR(aesenclast, false), PAIR(aesdec, false), PAIR(aesdeclast, false), PAIR(aesimc, false),
	PAIR(clmul_low_low, true), PAIR(clmul_high_low, true), PAIR(clmul_low_high, true), PAIR(clmul_high_high, true),
};

static unsigned long compared;

static uint8_t drawn(void)
{
	static uint64_t state = 88172645463325252;

	state ^= state << 13;
	state ^= state >> 7;
	state ^= state << 17;
	return (uint8_t)(state >> 11);
}

static void draw(uint8_t *bytes, size_t length)
{
	for (size_t i = 0; i < length; i++)
		bytes[i] = drawn();
}

static bool same(const void *made, const void *defined, size_t length, const char *name)
{
	compared++;
	if (memcmp(made, defined, length) == 0)
		return true;
	printf("%s differs from its definition\n", name);
	return false;
}

static bool agree(size_t n, const uint8_t first[16], const uint8_t second[16])
{
	uint8_t made[16], defined[16];

	memcpy(made, first, 16);
	memcpy(defined, first, 16);
	pairs[n].made(made, second);
	pairs[n].defined(defined, second);
	return same(made, defined, 16, pairs[n].name);
}

static bool one_byte_states(size_t n)
{
	static const uint8_t zeros[16];

	for (int place = 0; place < 16; place++)
		for (int byte = 0; byte < 256; byte++) {
			uint8_t state[16] = { 0 };

			state[place] = (uint8_t)byte;
			if (!agree(n, state, zeros))
				return false;
		}
	return true;
}

static bool single_bits(size_t n)
{
	for (int one = 0; one < 128; one++)
		for (int other = 0; other < 128; other++) {
			uint8_t first[16] = { 0 }, second[16] = { 0 };

			first[one / 8] = (uint8_t)(1 << one % 8);
			second[other / 8] = (uint8_t)(1 << other % 8);
			if (!agree(n, first, second))
				return false;
		}
	return true;
}

static bool instructions_agree(size_t n)
{
	if (!(pairs[n].is_product ? single_bits(n) : one_byte_states(n)))
		return false;
	for (int turn = 0; turn < RANDOM; turn++) {
		uint8_t first[16], second[16];

		draw(first, 16);
		draw(second, 16);
		if (!agree(n, first, second))
			return false;
	}
	return true;
}

static bool ciphers_agree(whole_cipher *by_instructions, whole_cipher *by_definition, const char *name)
{
	for (int turn = 0; turn < KEYS; turn++) {
		uint8_t key[16], made[8][16], defined[8][16];

		draw(key, sizeof key);
		draw(*made, sizeof made);
		memcpy(defined, made, sizeof made);
		by_instructions(key, sizeof key, made);
		by_definition(key, sizeof key, defined);
		if (!same(made, defined, sizeof made, name))
			return false;
	}
	return true;
}

static bool single_blocks_agree(void)
{
	for (int turn = 0; turn < KEYS; turn++) {
		uint8_t key[16], made[2][16], defined[2][16];

		draw(key, sizeof key);
		draw(*made, sizeof made);
		memcpy(defined, made, sizeof made);
		instruction_one_each(key, sizeof key, made[0], made[1]);
		defined_one_each(key, sizeof key, defined[0], defined[1]);
		if (!same(made, defined, sizeof made, "a block"))
			return false;
	}
	return true;
}

int main(void)
{
	bool good = true;

	if (!perdoaze_has_instructions) {
		puts("this processor lacks the instructions, or gives other values than the standards print");
		return 2;
	}
	if (!instruction_presence() || defined_presence()) {
		puts("has_instructions answers the wrong way round");
		good = false;
	}
	for (size_t n = 0; n < sizeof pairs / sizeof *pairs; n++)
		good &= instructions_agree(n);
	good &= ciphers_agree(instruction_seal, defined_seal, "sealing");
	good &= ciphers_agree(instruction_unseal, defined_unseal, "unsealing");
	good &= single_blocks_agree();
	printf("%lu compared\n", compared);
	return !good;
}
