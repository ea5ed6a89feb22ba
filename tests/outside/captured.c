/* Prints the captured length of each record of a capture, a line for each, as libpcap reads it. */

#define _DEFAULT_SOURCE /* for the number types that pcap.h uses */

#include <pcap/pcap.h>
#include <stdio.h>

int main(int argc, char **argv)
{
    char error[PCAP_ERRBUF_SIZE];
    struct pcap_pkthdr *header;
    const unsigned char *data;
    pcap_t *capture;
    int answer;

    if (argc != 2) {
        fprintf(stderr, "usage: captured CAPTURE\n");
        return 2;
    }
    capture = pcap_open_offline(argv[1], error);
    if (capture == NULL) {
        fprintf(stderr, "captured: %s\n", error);
        return 1;
    }
    while ((answer = pcap_next_ex(capture, &header, &data)) == 1)
        printf("%u\n", (unsigned)header->caplen);
    if (answer != PCAP_ERROR_BREAK) { /* which says that no record is left */
        fprintf(stderr, "captured: %s\n", pcap_geterr(capture));
        return 1;
    }
    pcap_close(capture);
    return 0;
}
