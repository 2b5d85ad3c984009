/* What the libraries do with a stream, each used as its own documents say; ours beside them. */
#ifndef WAYS_H
#define WAYS_H
#include "../rounds.h"

struct found ours_judge(const struct stream *);
struct found bitstream_collect(const struct stream *);
struct found bitstream_crc(const struct stream *);
struct found bitstream_validate(const struct stream *);
struct found bitstream_called_collect(const struct stream *);
struct found bitstream_called_crc(const struct stream *);
struct found bitstream_called_validate(const struct stream *);
struct found ucsi_collect(const struct stream *);
struct found ucsi_crc(const struct stream *);
struct found ucsi_codec(const struct stream *);
struct found avformat_crc(const struct stream *);
struct found avformat_each(const struct stream *);
struct found dvbpsi_crc(const struct stream *);

#endif
