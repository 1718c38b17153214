/* Document 01's worked example, written by scheduler_write: the stream on standard output. */
#include <stdio.h>
#include "scheduler.h"

int main(void)
{
    uint8_t stream[32];
    size_t n = 0;
    n += scheduler_write(0x01, (struct fields){ 0, 0, 0, 0 }, false, stream + n, sizeof stream - n).bytes;    /* cpu 0 */
    n += scheduler_write(0x03, (struct fields){ 0, 0, 0, 0 }, false, stream + n, sizeof stream - n).bytes;    /* place 0 0 */
    n += scheduler_write(0x04, (struct fields){ 0, 0, 0, 0 }, false, stream + n, sizeof stream - n).bytes;    /* seal */
    n += scheduler_write(0x10, (struct fields){ 7, 2, 64, 0xFF }, false, stream + n, sizeof stream - n).bytes; /* thread 7 2 64 */
    n += scheduler_write(0x12, (struct fields){ 0, 7, 0, 0 }, false, stream + n, sizeof stream - n).bytes;    /* wake 0 7 */
    n += scheduler_write(0x13, (struct fields){ 0, 0, 0, 0 }, false, stream + n, sizeof stream - n).bytes;    /* schedule 0 0 */
    return fwrite(stream, 1, n, stdout) == n ? 0 : 1;
}
