/* The same as hpack_bench, by nghttp2's inflater. */
#include <nghttp2/nghttp2.h>
#include <stdio.h>

int main(int argc, char **argv) {
    for (int i = 1; i < argc; i++) {
        FILE *f = fopen(argv[i], "rb");
        if (!f) return 1;
        static uint8_t data[1 << 24];
        size_t n = fread(data, 1, sizeof data, f);
        fclose(f);
        unsigned long long bytes = 0, sizes = 0;
        for (int round = 0; round < 500; round++) {
            nghttp2_hd_inflater *inflater;
            if (nghttp2_hd_inflate_new(&inflater)) return 1;
            for (size_t at = 0; at + 2 <= n;) {
                size_t len = data[at] * 256 + data[at + 1];
                at += 2;
                for (size_t k = 0;;) {
                    nghttp2_nv nv;
                    int flags = 0;
                    ssize_t r = nghttp2_hd_inflate_hd2(inflater, &nv, &flags, data + at + k, len - k, 1);
                    if (r < 0) return 2;
                    k += r;
                    if (flags & NGHTTP2_HD_INFLATE_EMIT) sizes += nv.namelen + nv.valuelen + 32;
                    if (flags & NGHTTP2_HD_INFLATE_FINAL) { nghttp2_hd_inflate_end_headers(inflater); break; }
                }
                bytes += len;
                at += len;
            }
            nghttp2_hd_inflate_del(inflater);
        }
        printf("%llu %llu\n", bytes, sizes);
    }
}
