#include "kwalgimo.h"
#include <stdio.h>

int main(void) {
    uint8_t image[KW_MOST_BYTES];
    int16_t blank[] = {0, 0}, cloudy[] = {30, 12}, plate[] = {25, 9};
    uint32_t codes[2], distances[2];
    uint64_t answer = kw_start(2, 1, 101, blank, 2, image, sizeof image);
    if (!kw_refusal(answer)) answer = kw_add(image, sizeof image, kw_length(answer), 102, cloudy, 2);
    if (!kw_refusal(answer)) answer = kw_sitting(image, kw_length(answer), plate, 2, 2, codes, 2, distances, 2);
    if (kw_refusal(answer)) return 1;
    for (size_t i = 0; i < kw_strains(answer); i++) printf("strain %u at %u\n", codes[i], distances[i]);
}
