/* The same programs and the same runs by DPDK's librte-bpf: rte_bpf_load validates a program, and
 * rte_bpf_exec interprets it. The context is 64 bytes that R1 points to, of the ten apps that the
 * program `bench` runs for. It prints the lines that `bench` prints, but for the instructions,
 * which rte_bpf_exec doesn't count.
 *
 *     peer verify PATTERN FILE TIMES
 *     peer run PATTERN FILE TIMES
 */
#include <stdint.h>
#include <stdio.h>
#include <stdlib.h>
#include <string.h>

#include <rte_bpf.h>
#include <rte_errno.h>

#define MOST_SLOTS 4096
#define APPS 10
#define CONTEXT_BYTES 64

static const uint64_t BASIS = 0xcbf29ce484222325u;
static const uint64_t PRIME = 0x100000001b3u;

static uint64_t hash_more(uint64_t hash, uint8_t byte)
{
	return (hash ^ byte) * PRIME;
}

static uint64_t hash_of(const uint8_t *bytes, size_t count)
{
	uint64_t hash = BASIS;
	for (size_t i = 0; i < count; i++)
		hash = hash_more(hash, bytes[i]);
	return hash;
}

/* The context of an app with no version, at day 0: its bucket, that it asks for an update, and that
 * its install day isn't known. */
static void put_context(uint8_t *context, uint16_t bucket)
{
	memset(context, 0, CONTEXT_BYTES);
	memcpy(context + 16, &bucket, sizeof(bucket));
	context[18] = 2;
	memset(context + 20, 0xff, 4);
}

static struct rte_bpf *load(const uint8_t *bytes, size_t count)
{
	struct rte_bpf_prm prm = {
		.ins = (const struct ebpf_insn *)bytes,
		.nb_ins = count / sizeof(struct ebpf_insn),
		.prog_arg = { .type = RTE_BPF_ARG_PTR, .size = CONTEXT_BYTES },
	};
	return rte_bpf_load(&prm);
}

static struct rte_bpf *load_or_stop(const uint8_t *bytes, size_t count)
{
	struct rte_bpf *program = load(bytes, count);
	if (program == NULL) {
		fprintf(stderr, "peer: rte_bpf_load: %s\n", rte_strerror(rte_errno));
		exit(1);
	}
	return program;
}

static void verify_times(const uint8_t *bytes, size_t count, uint32_t times)
{
	for (uint32_t i = 0; i < times; i++)
		rte_bpf_destroy(load_or_stop(bytes, count));
}

static uint64_t run_times(const struct rte_bpf *program, uint32_t times)
{
	static uint8_t contexts[APPS][CONTEXT_BYTES];
	uint64_t choices = BASIS;
	for (int k = 0; k < APPS; k++)
		put_context(contexts[k], 1000 * k + 500);
	for (uint32_t n = 0; n < times; n++)
		choices = hash_more(choices, rte_bpf_exec(program, contexts[n % APPS]));
	return choices;
}

int main(int argc, char **argv)
{
	static uint8_t bytes[8 * MOST_SLOTS] __attribute__((aligned(8)));
	if (argc != 5)
		return 2;
	FILE *file = fopen(argv[3], "rb");
	if (file == NULL)
		return 2;
	size_t count = fread(bytes, 1, sizeof(bytes), file);
	fclose(file);
	uint32_t times = strtoul(argv[4], NULL, 10);
	printf("%s slots=%zu bytes=%016lx ", argv[2], count / 8, hash_of(bytes, count));
	if (strcmp(argv[1], "verify") == 0) {
		verify_times(bytes, count, times);
		printf("verifications=%u\n", times);
	} else {
		struct rte_bpf *program = load_or_stop(bytes, count);
		printf("runs=%u choices=%016lx\n", times, run_times(program, times));
		rte_bpf_destroy(program);
	}
	return 0;
}
