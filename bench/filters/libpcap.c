/* Times libpcap's bpf_filter on the frames of a recording, held in memory. The recording comes from standard input, and each
   argument is a filter in the numeric form. A line for each: the least picoseconds a frame, and the sum of the answers
   of a round. */
#include <pcap/pcap.h>
#include <stdint.h>
#include <stdio.h>
#include <stdlib.h>
#include <string.h>
#include <time.h>

#define ROUNDS 30
#define PASSES 20

struct frame {
  uint32_t held, wire;
  unsigned char *bytes;
};

static struct frame *frames;
static size_t count;

static void read_frames(void) {
  char error[PCAP_ERRBUF_SIZE];
  pcap_t *tap = pcap_open_offline_with_tstamp_precision("-", PCAP_TSTAMP_PRECISION_NANO, error);
  if (!tap) {
    fprintf(stderr, "%s\n", error);
    exit(1);
  }
  struct pcap_pkthdr *head;
  const u_char *bytes;
  for (size_t room = 0; pcap_next_ex(tap, &head, &bytes) == 1; count++) {
    if (count == room)
      frames = realloc(frames, (room = room ? 2 * room : 1024) * sizeof *frames);
    frames[count] = (struct frame){head->caplen, head->len, malloc(head->caplen)};
    memcpy(frames[count].bytes, bytes, head->caplen);
  }
}

static struct bpf_insn *read_filter(char *text) {
  unsigned length = strtoul(text, &text, 10);
  struct bpf_insn *words = calloc(length, sizeof *words);
  for (unsigned i = 0; i < length; i++) {
    words[i].code = strtoul(text + 1, &text, 10);
    words[i].jt = strtoul(text, &text, 10);
    words[i].jf = strtoul(text, &text, 10);
    words[i].k = strtoul(text, &text, 10);
  }
  return words;
}

int main(int argc, char **argv) {
  read_frames();
  for (int a = 1; a < argc; a++) {
    struct bpf_insn *words = read_filter(argv[a]);
    double least = 1e300;
    uint64_t answers = 0;
    for (int round = 0; round < ROUNDS; round++) {
      struct timespec start, end;
      answers = 0;
      clock_gettime(CLOCK_MONOTONIC, &start);
      for (int pass = 0; pass < PASSES; pass++)
        for (size_t i = 0; i < count; i++)
          answers += bpf_filter(words, frames[i].bytes, frames[i].wire, frames[i].held);
      clock_gettime(CLOCK_MONOTONIC, &end);
      double took = (end.tv_sec - start.tv_sec) * 1e12 + (end.tv_nsec - start.tv_nsec) * 1e3;
      if (took < least)
        least = took;
    }
    printf("%.0f %llu\n", least / PASSES / count, (unsigned long long)answers);
    free(words);
  }
  return 0;
}
