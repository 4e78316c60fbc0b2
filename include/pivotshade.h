/* The functions that a host calls. Each returns 0 or the number of a refusal (pivotshade_run also 256, pivotshade_count also 257), and fills its last
   part, four figures: the accepted answer's, or the refusal's, zeros after them. The numbers and their figures:
     1 input ended {offset}                  5 dimensions {width, height}             8 no marker after the last pixel
     2 channels {channels}                   6 image length {size, width, height}     9 bad record {offset}
     3 colour space {byte}                   7 output too small {size, required}     10 run past the image (strict)
     4 magic {magic}                                                                 11 bytes after the marker (strict)
    12 record of another message {number}
    19 hour {hour}                          20 number of cells {pixels, cells}       21 total too large {cell}
   The offset of 1 and 9 is that of the bad field in a record (see pivotshade_run). 1 has none, and so 0, where it is of anything else.
   Parts that are lent to one call do not overlap, and each pointer is good for its length; figures has room for four numbers. */
#ifndef PIVOTSHADE_H
#define PIVOTSHADE_H

#include <stddef.h>
#include <stdint.h>

#ifdef __cplusplus
extern "C" {
#endif

/* Width, height, channels, colour space. */
uint64_t pivotshade_header(const uint8_t *msg, size_t len, uint64_t figures[4]);

/* Decodes to 3 or 4 wanted channels: bytes written, message bytes used. out needs width x height x wanted bytes; of a longer one the end stays as
   it was. After a refusal 2 to 7 nothing is written, after 1 the pixels of the chunks done, after 8 every pixel; no other byte of out changes. */
uint64_t pivotshade_decode(const uint8_t *msg, size_t len, uint64_t wanted, uint8_t *out, size_t out_len, uint64_t figures[4]);

/* Encodes width x height pixels of 3 or 4 bytes each, len bytes in all (len says which), in colour space 0 (sRGB) or 1 (linear): bytes written.
   Refused in this order: 5, 6, 2, 3, 7. out needs 22 + pixels x (channels + 1) bytes, however few are written. After a refusal nothing is
   written; no byte of out after those written changes. */
uint64_t pivotshade_encode(const uint8_t *px, size_t len, uint32_t width, uint32_t height, uint64_t colorspace, uint8_t *out, size_t out_len,
                           uint64_t figures[4]);

/* The strict check, which writes nothing but the figures: accepts what pivotshade_decode accepts with no run past the image and nothing after
   the marker. Chunks, bytes (all of len). Refused in this order: the header's; at each chunk 1, 8, 10; at the end 1, 8, 11. What it accepts
   pivotshade_decode accepts to 3 and to 4 wanted channels. */
uint64_t pivotshade_strict(const uint8_t *msg, size_t len, uint64_t figures[4]);

/* A refusal in words, in ASCII with no 0 byte at their end. `number` is what a call returned, `figures` what it filled: they are only read, and
   answer is another place. 0: the words stand at the front of out, and answer[0] is their length. 7 {out_len, required}: nothing is written.
   Of a number that is no refusal, as 0, PIVOTSHADE_MORE and PIVOTSHADE_COUNTED_ALREADY, they say `unknown refusal: n`. With PIVOTSHADE_TEXT_MAX
   bytes 7 never comes. */
#define PIVOTSHADE_TEXT_MAX 160
uint64_t pivotshade_text(uint64_t number, const uint64_t figures[4], uint8_t *out, size_t out_len, uint64_t answer[4]);

/* Starts a decode that can be taken over, and writes its record (at most PIVOTSHADE_RECORD_MAX bytes): the record's length. `number` is the one
   that the broker gave the message, any number; each record of the decode names it. After a refusal record is as it was. 7 is the record's: with
   PIVOTSHADE_RECORD_MAX bytes it never comes. */
#define PIVOTSHADE_RECORD_MAX 300
uint64_t pivotshade_start(const uint8_t *msg, size_t len, uint64_t number, uint64_t wanted, uint8_t *record, size_t record_len,
                          uint64_t figures[4]);

/* Takes up a record of the message that came under `number` and does at most `steps` steps, a chunk each. 0: the decode ended, with decode's
   figures. PIVOTSHADE_MORE: there is more to do; next holds the next record, and its length is the first figure. Else a refusal. Whatever is
   returned but PIVOTSHADE_MORE, next is as it was. No byte of out before the record's pixel is written.

   out needs width x height x wanted bytes from the first run on, as for pivotshade_decode. Lend next PIVOTSHADE_RECORD_MAX bytes, always.

   0 steps test the record alone, and look neither at msg nor at out: PIVOTSHADE_MORE and the same record in next, or the record's refusal.

   A host owes, and the call cannot see:
   - the number that msg came under. Under one number come always the same bytes: that is for the broker to keep, and is taken for granted;
   - an output that holds, before the record's pixel, what it held when the record was written; from there on it may hold anything;
   - parts that do not overlap, and that nobody else writes during the call: msg, record, out, next and figures are five different places. A
     record is not run into itself.

   Whose refusal it is, and what it leaves:
   - 2, 3, 4, 5 and 9 are the record's; out is as it was.
   - 12 is the record's: it is whole, and names another message, whose number is the figure. out is as it was.
   - 1 is the record's, cut short, or the message's. With an offset it is the record's, and out is as it was; with 0 it is the message's, or that
     of a record whose header is cut, which is at its byte 0. A host that wants to tell these two apart looks at the record's length: under 14.
   - 1 and 8 of the message leave out as pivotshade_decode leaves it.
   - 7 is out's, which is then as it was. Where next has less than PIVOTSHADE_RECORD_MAX bytes it may be next's: then the steps are done, and
     stand in out.
   After any of them the same record may be handed in again.

   Where a record is bad, the first figure of 1 and 9. Its fields are the header, 14 bytes; the numbers wanted, byte position and pixel position;
   the current pixel, 4 bytes; the slots, 256 bytes; the message's number. The figure is where the field starts that is cut short (1), or that is
   a number not in its shortest form or past 2^64-1 (9). Where each field can be read, it is where the first of these starts (9): a byte position
   under 14; a pixel position above the pixels; with 3 wanted, a current pixel whose fourth byte is not 255; bytes after the message's number.

   A host that keeps its output in a file writes there only from the record's pixel on, and saves the next record after that is flushed. The
   pixel is the pixel position, and its first byte in out that number times wanted, which is the channels. A number of a record has seven bits a
   byte, the lowest first, and the top bit set on all but its last byte. */
#define PIVOTSHADE_MORE 256
uint64_t pivotshade_run(const uint8_t *msg, size_t len, uint64_t number, const uint8_t *record, size_t record_len, uint8_t *out, size_t out_len,
                        uint64_t steps, uint8_t *next, size_t next_len, uint64_t figures[4]);

/* Counts the rain of an hour, once however often its message comes. A month's table is two parts: totals, a number for each of `cells` cells, and
   marks, a byte for each of the hours 0 to 743, which is marked where the byte is not 0. A fresh table is all zeros. A message's picture is the
   hour's frame: a pixel is a cell, and its four bytes as one number, the first one highest, are the cell's rain in hundredths of a millimetre.

   0: counted. Each total has grown by its cell's rain, marks[hour] is 1, and no other mark has changed. Message bytes used.
   PIVOTSHADE_COUNTED_ALREADY: the hour is marked. No figures: four zeros.
   Else a refusal. Whatever is returned but 0, totals and marks are as they were, so an hour whose frame is refused may come again.

   What is returned, in this order, and what frame holds then:
   - 19 for an hour above 743, and then PIVOTSHADE_COUNTED_ALREADY: what it held. msg is not looked at.
   - What pivotshade_decode to 4 wanted channels refuses, 1 to 5, 7 and 8: what that leaves in its output.
   - 2 {3} for a message of three channels, which is no frame; 20 where the picture has not `cells` pixels; 21 where a total would pass 2^64-1,
     with the first cell whose total would; 0: in each case the whole picture, four bytes a pixel.
   frame needs width x height x 4 bytes; of a longer one the end stays as it was. From a fresh table on 21 never comes.

   A host owes, and the call cannot see:
   - totals and marks of one table: an hour's mark says that its rain is in the totals;
   - parts that do not overlap, and that nobody else writes during the call: msg, frame, totals, marks and figures are five different places.

   A host that keeps its table writes totals and marks as one, so that a store that is cut off holds both from before a call or both from after it:
   rain without its mark would be counted again, and a mark without its rain would keep it out for good. */
#define PIVOTSHADE_COUNTED_ALREADY 257
uint64_t pivotshade_count(const uint8_t *msg, size_t len, uint64_t hour, uint8_t *frame, size_t frame_len, uint64_t *totals, size_t cells,
                          uint8_t marks[744], uint64_t figures[4]);

#ifdef __cplusplus
}
#endif

#endif
