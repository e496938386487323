#include "options.h"

#include "message.h"

#include <getopt.h>
#include <stdio.h>

static const char HELP[] =
    "usage: rtp_record [OPTION].. CAPTURE\n"
    "       rtp_record [OPTION].. -i INTERFACE\n"
    "Lists the RTP streams of a capture (pcap or pcapng, or - for the standard input) or of an interface, and\n"
    "writes them as files that play, without encoding them again.\n"
    "\n"
    "  -i, --interface NAME   live, until it is interrupted\n"
    "  -f, --filter FILTER    only packets of that filter, in libpcap's language\n"
    "  -o, --output FOLDER    writes each stream into a file of that folder, named by its SSRC\n"
    "  -o, --output FILE      writes the first stream into that file, and later ones beside it; its ending is one of\n"
    "                         .webm, .mkv, .mka, .ivf, .obu, .ogg, .opus, .wav or .awb\n"
    "  -m, --mux FILE         writes all streams into one file, synchronised by sender reports\n"
    "  -s, --sdp FILE         the signalled session, as SDP; may be given more than once\n"
    "  -p, --map PT=NAME/RATE a payload type by hand; /CHANNELS and ;PARAMETERS may follow\n"
    "  -a, --all              frames before the first keyframe too\n"
    "  -d, --decodable        after a loss, no frames that a decoder cannot show\n"
    "  -F, --fill             writes silence for lost packets of G.711 and AMR-WB\n"
    "  -j, --json             the list as JSON\n"
    "  -q, --quiet            no progress, and no remarks\n"
    "  -h, --help             this text\n"
    "\n"
    "Status: 0 everything was written, 1 something failed, 2 wrong use.\n";

static const struct option LONG[] = {
    {"interface", required_argument, NULL, 'i'}, {"filter", required_argument, NULL, 'f'}, {"output", required_argument, NULL, 'o'},
    {"mux", required_argument, NULL, 'm'},       {"sdp", required_argument, NULL, 's'},    {"map", required_argument, NULL, 'p'},
    {"all", no_argument, NULL, 'a'},             {"decodable", no_argument, NULL, 'd'},
    {"fill", no_argument, NULL, 'F'},            {"json", no_argument, NULL, 'j'},
    {"quiet", no_argument, NULL, 'q'},           {"help", no_argument, NULL, 'h'},         {NULL, 0, NULL, 0},
};

static options_answer take(options *it, int letter) {
    switch (letter) {
    case 'i': it->interface = optarg; return OPTIONS_RUN;
    case 'f': it->filter = optarg; return OPTIONS_RUN;
    case 'o':
        if (writer_knows(optarg)) it->output.file = optarg;
        else it->output.folder = optarg;
        return OPTIONS_RUN;
    case 'm': it->output.mux = optarg; return OPTIONS_RUN;
    case 's': return signalling_read_sdp(&it->known, optarg) ? OPTIONS_RUN : OPTIONS_WRONG;
    case 'p':
        if (signalling_map(&it->known, optarg)) return OPTIONS_RUN;
        complain("--map %s: not PT=NAME/RATE", optarg);
        return OPTIONS_WRONG;
    case 'a': it->output.options.all = true; return OPTIONS_RUN;
    case 'd': it->output.options.decodable = true; return OPTIONS_RUN;
    case 'F': it->output.options.fill = true; return OPTIONS_RUN;
    case 'j': it->json = true; return OPTIONS_RUN;
    case 'q': messages_quiet(); return OPTIONS_RUN;
    case 'h': fputs(HELP, stdout); return OPTIONS_DONE;
    default: fputs(HELP, stderr); return OPTIONS_WRONG;
    }
}

options_answer options_read(options *it, int count, char **words) {
    int letter;
    *it = (options){0};
    while ((letter = getopt_long(count, words, "i:f:o:m:s:p:adFjqh", LONG, NULL)) != -1) {
        options_answer answer = take(it, letter);
        if (answer != OPTIONS_RUN) return answer;
    }
    if (optind < count) it->capture = words[optind++];
    if (optind < count || !it->capture == !it->interface) {
        complain("give one capture or one interface; see --help");
        return OPTIONS_WRONG;
    }
    if ((it->output.folder || it->output.file) && it->output.mux) {
        complain("--output and --mux do not go together");
        return OPTIONS_WRONG;
    }
    if (it->output.mux && (it->interface || (it->capture[0] == '-' && !it->capture[1]))) {
        complain("--mux needs a capture file that can be read twice");
        return OPTIONS_WRONG;
    }
    return OPTIONS_RUN;
}
