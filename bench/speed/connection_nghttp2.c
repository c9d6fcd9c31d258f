/* The same as connection_main.rt.in, by nghttp2's session; and what memcpy does with as many octets. It prints what is
   measured, how many, and microseconds, with tabs between. */
#include <nghttp2/nghttp2.h>
#include <stdio.h>
#include <stdlib.h>
#include <string.h>
#include <time.h>

static const uint8_t headers_frame[] = {0, 0, 1, 1, 4, 0, 0, 0, 1, 0x82};
static const char preface[] = "PRI * HTTP/2.0\r\n\r\nSM\r\n\r\n";
static uint64_t octets_came;

static double now(void) {
    struct timespec t;
    clock_gettime(CLOCK_MONOTONIC, &t);
    return t.tv_sec + t.tv_nsec / 1e9;
}

static void tell(const char *name, uint64_t many, double start) {
    printf("%s\t%llu\t%.0f\n", name, (unsigned long long)many, (now() - start) * 1e6);
}

static void check(int64_t result) {
    if (result < 0) {
        fprintf(stderr, "nghttp2: %s\n", nghttp2_strerror((int)result));
        exit(1);
    }
}

static int on_chunk(nghttp2_session *s, uint8_t flags, int32_t stream, const uint8_t *data, size_t n, void *user) {
    (void)flags, (void)data, (void)user;
    octets_came += n;
    check(nghttp2_session_consume(s, stream, n));
    return 0;
}

static int answers(nghttp2_session *s, const nghttp2_frame *f, void *user) {
    (void)user;
    if (f->hd.type == NGHTTP2_HEADERS && f->headers.cat == NGHTTP2_HCAT_REQUEST) {
        nghttp2_nv status = {(uint8_t *)":status", (uint8_t *)"200", 7, 3, NGHTTP2_NV_FLAG_NONE};
        check(nghttp2_submit_headers(s, NGHTTP2_FLAG_END_STREAM, f->hd.stream_id, NULL, &status, 1, NULL));
    }
    return 0;
}

static nghttp2_session *session(int server, int answering) {
    nghttp2_session_callbacks *c;
    nghttp2_option *o;
    nghttp2_session *s;
    check(nghttp2_session_callbacks_new(&c));
    nghttp2_session_callbacks_set_on_data_chunk_recv_callback(c, on_chunk);
    if (answering) nghttp2_session_callbacks_set_on_frame_recv_callback(c, answers);
    check(nghttp2_option_new(&o));
    nghttp2_option_set_no_auto_window_update(o, 1);
    nghttp2_option_set_no_http_messaging(o, 1);
    /* else it ends a connection on which more than 1,000 acknowledgements wait */
    nghttp2_option_set_max_outbound_ack(o, 100000);
    if (server) check(nghttp2_session_server_new2(&s, c, NULL, o));
    else check(nghttp2_session_client_new2(&s, c, NULL, o));
    nghttp2_session_callbacks_del(c);
    nghttp2_option_del(o);
    nghttp2_settings_entry e[] = {{NGHTTP2_SETTINGS_MAX_CONCURRENT_STREAMS, 100}};
    check(nghttp2_submit_settings(s, NGHTTP2_FLAG_NONE, e, 1));
    return s;
}

static size_t write_all(nghttp2_session *s) {
    size_t all = 0;
    for (;;) {
        const uint8_t *out;
        ssize_t n = nghttp2_session_mem_send(s, &out);
        check(n);
        if (n == 0) return all;
        all += n;
    }
}

/* A server to which a client spoke first. */
static nghttp2_session *spoken(void) {
    static const uint8_t settings[] = {0, 0, 6, 4, 0, 0, 0, 0, 0, 0, 4, 0x7f, 0xff, 0xff, 0xff};
    nghttp2_session *s = session(1, 0);
    check(nghttp2_session_mem_recv(s, (const uint8_t *)preface, 24));
    check(nghttp2_session_mem_recv(s, settings, sizeof settings));
    write_all(s);
    return s;
}

static void received(int times) {
    static uint8_t block[4 * 16393];
    nghttp2_session *s = spoken();
    check(nghttp2_session_mem_recv(s, headers_frame, sizeof headers_frame));
    for (int i = 0; i < 4; i++) {
        uint8_t head[] = {0, 0x40, 0, 0, 0, 0, 0, 0, 1};
        memcpy(block + i * 16393, head, 9);
        memset(block + i * 16393 + 9, 'x', 16384);
    }
    octets_came = 0;
    double start = now();
    for (int i = 0; i < times; i++) {
        /* one frame at a time, since windows are 65,535 octets */
        for (int k = 0; k < 4; k++) {
            check(nghttp2_session_mem_recv(s, block + k * 16393, 16393));
            write_all(s);
        }
    }
    tell("DATA received", octets_came, start);
    nghttp2_session_del(s);
}

static ssize_t some(nghttp2_session *s, int32_t stream, uint8_t *buf, size_t n, uint32_t *flags, nghttp2_data_source *source, void *user) {
    (void)s, (void)stream, (void)flags, (void)source, (void)user;
    static const uint8_t octets[16384];
    if (n > sizeof octets) n = sizeof octets;
    memcpy(buf, octets, n);
    octets_came += n;
    return n;
}

static void sent(int times) {
    static const uint8_t update[] = {0, 0, 4, 8, 0, 0, 0, 0, 0, 0x7f, 0xff, 0, 0};
    nghttp2_session *s = spoken();
    check(nghttp2_session_mem_recv(s, headers_frame, sizeof headers_frame));
    check(nghttp2_session_mem_recv(s, update, sizeof update));
    nghttp2_nv status = {(uint8_t *)":status", (uint8_t *)"200", 7, 3, NGHTTP2_NV_FLAG_NONE};
    nghttp2_data_provider provider = {{0}, some};
    check(nghttp2_submit_response(s, 1, &status, 1, &provider));
    octets_came = 0;
    double start = now();
    while (octets_came < times * 4ull * 16384) {
        const uint8_t *out;
        ssize_t n = nghttp2_session_mem_send(s, &out);
        check(n);
        if (n == 0) break;
    }
    tell("DATA sent", octets_came, start);
    nghttp2_session_del(s);
}

static void small(const char *name, const uint8_t *frame, size_t size, int times) {
    static uint8_t block[20000];
    int frames = 900;
    nghttp2_session *s = spoken();
    for (int i = 0; i < frames; i++) memcpy(block + i * size, frame, size);
    double start = now();
    for (int i = 0; i < times; i++) {
        check(nghttp2_session_mem_recv(s, block, frames * size));
        write_all(s);
    }
    tell(name, (uint64_t)times * frames, start);
    nghttp2_session_del(s);
}

static void pass(nghttp2_session *from, nghttp2_session *to) {
    for (;;) {
        const uint8_t *out;
        ssize_t n = nghttp2_session_mem_send(from, &out);
        check(n);
        if (n == 0) return;
        check(nghttp2_session_mem_recv(to, out, n));
    }
}

#define HEADER(name, value) {(uint8_t *)name, (uint8_t *)value, sizeof name - 1, sizeof value - 1, NGHTTP2_NV_FLAG_NONE}

static ssize_t end(nghttp2_session *s, int32_t stream, uint8_t *buf, size_t n, uint32_t *flags, nghttp2_data_source *source, void *user) {
    (void)s, (void)stream, (void)buf, (void)n, (void)source, (void)user;
    *flags |= NGHTTP2_DATA_FLAG_EOF;
    return 0;
}

static void requests(int times) {
    nghttp2_session *client = session(0, 0), *server = session(1, 1);
    nghttp2_nv headers[] = {
        HEADER(":method", "CONNECT"), HEADER(":authority", "10.0.1.7:8080"), HEADER("forwarded", "for=10.0.2.9;by=10.0.1.4")};
    nghttp2_data_provider provider = {{0}, end};
    pass(client, server);
    pass(server, client);
    pass(client, server);
    double start = now();
    for (int i = 0; i < times; i++) {
        check(nghttp2_submit_request(client, NULL, headers, 3, &provider, NULL));
        pass(client, server);
        pass(server, client);
    }
    tell("requests", times, start);
    nghttp2_session_del(client);
    nghttp2_session_del(server);
}

/* Blocks of 16,384 octets, the same again and again, and then one behind the other out of 256 MB. */
static void copies(int times) {
    static uint8_t to[16384];
    size_t size = 256 << 20;
    uint8_t *from = malloc(size);
    if (!from) exit(1);
    memset(from, 'x', size);
    for (int large = 0; large < 2; large++) {
        double start = now();
        for (int i = 0; i < 4 * times; i++) {
            memcpy(to, from + (large ? (size_t)i * sizeof to % size : 0), sizeof to);
            __asm__ volatile("" : : "r"(to) : "memory");
        }
        tell(large ? "memcpy out of 256 MB" : "memcpy of the same 16,384", 4ull * times * sizeof to, start);
    }
    free(from);
}

/* What connection_main.rt.in feeds to a connection that it holds. */
static void hold(int listed) {
    static const uint8_t ping[] = {0, 0, 8, 6, 0, 0, 0, 0, 0, 1, 2, 3, 4, 5, 6, 7, 8};
    static uint8_t octets[1000 + 2500 + 287 * 28 + 1910 * 17 + 3 * 16393];
    size_t n = 0;
    for (int i = 0; i < 99; i++) {
        uint8_t head[] = {0, 0, 1, 1, 4, 0, 0, 0, i * 2 + 1, 0x82};
        memcpy(octets + n, head, sizeof head), n += sizeof head;
    }
    uint8_t head[] = {0, 9, 101, 1, 4, 0, 0, 0, 199};
    memcpy(octets + n, head, sizeof head), n += sizeof head;
    for (int i = 0; i < 481; i++) memcpy(octets + n, "\x40\1a\1b", 5), n += 5;
    if (listed) {
        uint8_t list[] = {0, 31, 100, 1, 4, 0, 0, 0, 201};
        memcpy(octets + n, list, sizeof list), n += sizeof list;
        for (int i = 0; i < 287; i++) memcpy(octets + n, "\0\1a\30vvvvvvvvvvvvvvvvvvvvvvvv", 28), n += 28;
    }
    for (int i = 0; i < 1910; i++) memcpy(octets + n, ping, sizeof ping), n += sizeof ping;
    if (listed) {
        uint8_t data[] = {0, 0x40, 0, 0, 0, 0, 0, 0, 1};
        memcpy(octets + n, data, sizeof data), n += sizeof data;
        memset(octets + n, 'x', 16384), n += 16384;
    }
    for (int i = 0; i < 3 && !listed; i++) {
        uint8_t block[] = {0, 0x40, 0, i ? 9 : 1, 0, 0, 0, 0, 201};
        memcpy(octets + n, block, sizeof block), n += sizeof block;
        memset(octets + n, 0x82, 16384), n += 16384;
    }
    nghttp2_session *s = spoken();
    nghttp2_session_mem_recv(s, octets, n - 1);
}

static void peak(void) {
    char line[200];
    FILE *status = fopen("/proc/self/status", "r");
    while (status && fgets(line, sizeof line, status))
        if (!strncmp(line, "VmHWM", 5)) fputs(line, stdout);
}

int main(int argc, char **argv) {
    static const uint8_t ping[] = {0, 0, 8, 6, 0, 0, 0, 0, 0, 1, 2, 3, 4, 5, 6, 7, 8};
    static const uint8_t update[] = {0, 0, 4, 8, 0, 0, 0, 0, 0, 0, 0, 0, 1};
    if (argc < 3) return 1;
    int times = atoi(argv[1]);
    if (!strcmp(argv[2], "data")) {
        copies(times);
        received(times);
        sent(times);
    } else if (!strcmp(argv[2], "small")) {
        small("PING", ping, sizeof ping, times);
        small("WINDOW_UPDATE", update, sizeof update, times);
    } else if (!strcmp(argv[2], "requests")) {
        requests(times);
    } else {
        for (int i = 0; i < times; i++) hold(strcmp(argv[2], "hold"));
        peak();
    }
}
