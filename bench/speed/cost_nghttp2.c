/* The same as cost_main.rt.in, by nghttp2's session. */
#include <nghttp2/nghttp2.h>
#include <stdio.h>
#include <stdlib.h>
#include <string.h>

static int open_streams;
static unsigned long answered;

static void check(int64_t result) {
    if (result < 0) {
        fprintf(stderr, "nghttp2: %s\n", nghttp2_strerror((int)result));
        exit(1);
    }
}

static int on_chunk(nghttp2_session *s, uint8_t flags, int32_t stream, const uint8_t *data, size_t n, void *user) {
    (void)flags, (void)data, (void)user;
    check(nghttp2_session_consume(s, stream, n));
    return 0;
}

static int on_begin(nghttp2_session *s, const nghttp2_frame *f, void *user) {
    (void)s, (void)f, (void)user;
    open_streams++;
    return 0;
}

static int on_close(nghttp2_session *s, int32_t stream, uint32_t code, void *user) {
    (void)s, (void)stream, (void)code, (void)user;
    open_streams--;
    return 0;
}

static ssize_t nothing(nghttp2_session *s, int32_t stream, uint8_t *out, size_t n, uint32_t *flags, nghttp2_data_source *from,
                       void *user) {
    (void)s, (void)stream, (void)out, (void)n, (void)from, (void)user;
    *flags |= NGHTTP2_DATA_FLAG_EOF;
    return 0;
}

static int on_frame(nghttp2_session *s, const nghttp2_frame *f, void *user) {
    (void)user;
    if (f->hd.type != NGHTTP2_HEADERS || (unsigned long)f->hd.stream_id < answered) return 0;
    nghttp2_nv status = {(uint8_t *)":status", (uint8_t *)"200", 7, 3, NGHTTP2_NV_FLAG_NONE};
    nghttp2_data_provider end = {{0}, nothing};
    check(nghttp2_submit_response(s, f->hd.stream_id, &status, 1, &end));
    return 0;
}

static nghttp2_session *server(void) {
    nghttp2_session_callbacks *c;
    nghttp2_option *o;
    nghttp2_session *s;
    check(nghttp2_session_callbacks_new(&c));
    nghttp2_session_callbacks_set_on_data_chunk_recv_callback(c, on_chunk);
    nghttp2_session_callbacks_set_on_begin_headers_callback(c, on_begin);
    nghttp2_session_callbacks_set_on_frame_recv_callback(c, on_frame);
    nghttp2_session_callbacks_set_on_stream_close_callback(c, on_close);
    check(nghttp2_option_new(&o));
    nghttp2_option_set_no_auto_window_update(o, 1);
    nghttp2_option_set_no_http_messaging(o, 1);
    /* else it ends a connection on which more than 1,000 acknowledgements wait, or on which more streams are reset, or on
       which SETTINGS have more than 32 pairs */
    nghttp2_option_set_max_settings(o, 10000);
    nghttp2_option_set_max_outbound_ack(o, 100000);
    nghttp2_option_set_stream_reset_rate_limit(o, 1000000000, 1000000000);
    check(nghttp2_session_server_new2(&s, c, NULL, o));
    nghttp2_session_callbacks_del(c);
    nghttp2_option_del(o);
    nghttp2_settings_entry e[] = {
        {NGHTTP2_SETTINGS_MAX_CONCURRENT_STREAMS, 100}, {NGHTTP2_SETTINGS_MAX_HEADER_LIST_SIZE, 16384}};
    check(nghttp2_submit_settings(s, NGHTTP2_FLAG_NONE, e, 2));
    return s;
}

static void write_all(nghttp2_session *s) {
    for (;;) {
        const uint8_t *out;
        ssize_t n = nghttp2_session_mem_send(s, &out);
        check(n);
        if (n == 0) return;
    }
}

static size_t feed(nghttp2_session *s, const uint8_t *octets, size_t size, int reads) {
    size_t taken = 0;
    while (taken < size) {
        size_t piece = size - taken < 16384 ? size - taken : 16384;
        ssize_t n = nghttp2_session_mem_recv(s, octets + taken, piece);
        if (n <= 0 || !nghttp2_session_want_read(s)) return taken;
        taken += n;
        if (reads) write_all(s);
    }
    return taken;
}

static uint8_t *all(const char *name, size_t *size) {
    FILE *f = fopen(name, "rb");
    uint8_t *octets = malloc(1 << 22);
    if (!f || !octets) exit(1);
    *size = fread(octets, 1, 1 << 22, f);
    fclose(f);
    return octets;
}

int main(int argc, char **argv) {
    size_t first, second;
    if (argc < 5) return 1;
    uint8_t *setup = all(argv[1], &first), *octets = all(argv[2], &second);
    int reads = !strcmp(argv[3], "read");
    answered = strtoul(argv[4], NULL, 10);
    nghttp2_session *s = server();
    feed(s, setup, first, reads);
    size_t taken = argc > 5 ? 0 : feed(s, octets, second, reads);
    printf("%zu\t%d\n", taken, open_streams);
    return 0;
}
