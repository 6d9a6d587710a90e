/* four < picture.ppm > picture.jpg: codes a picture as four channels at 1 x 1, cyan, magenta, yellow and black, with libjpeg-turbo and
 * with cjpeg's own settings at quality 85: cjpeg itself makes no picture of four channels. */
#include <stdio.h>
#include <stdlib.h>

#include <jpeglib.h>

enum { QUALITY = 85, CHANNELS = 4 };

static void off(const char *text) {
    fprintf(stderr, "four: %s\n", text);
    exit(1);
}

/* Black is what cyan, magenta and yellow have in common. */
static void separate(const unsigned char *rgb, JSAMPLE *cmyk) {
    int black = 255;
    for (int i = 0; i < 3; i++)
        black = 255 - rgb[i] < black ? 255 - rgb[i] : black;
    for (int i = 0; i < 3; i++)
        cmyk[i] = (JSAMPLE)(255 - rgb[i] - black);
    cmyk[3] = (JSAMPLE)black;
}

static void set_up(struct jpeg_compress_struct *info, unsigned width, unsigned height) {
    info->image_width = width;
    info->image_height = height;
    info->input_components = CHANNELS;
    info->in_color_space = JCS_CMYK;
    jpeg_set_defaults(info);
    jpeg_set_quality(info, QUALITY, TRUE);
    jpeg_stdio_dest(info, stdout);
}

static void write_row(struct jpeg_compress_struct *info, unsigned char *rgb, JSAMPLE *cmyk) {
    if (fread(rgb, 3, info->image_width, stdin) != info->image_width)
        off("the picture is cut short");
    for (size_t x = 0; x < info->image_width; x++)
        separate(rgb + 3 * x, cmyk + CHANNELS * x);
    JSAMPROW rows[1] = {cmyk};
    jpeg_write_scanlines(info, rows, 1);
}

int main(void) {
    unsigned width, height;
    if (scanf("P6 %u %u 255", &width, &height) != 2 || getchar() != '\n')
        off("standard input is no PPM of 8 bits");
    unsigned char *rgb = malloc(3 * (size_t)width);
    JSAMPLE *cmyk = malloc(CHANNELS * (size_t)width);
    if (rgb == NULL || cmyk == NULL)
        off("there is not enough memory");
    struct jpeg_error_mgr errors;
    struct jpeg_compress_struct info;
    info.err = jpeg_std_error(&errors);
    jpeg_create_compress(&info);
    set_up(&info, width, height);
    jpeg_start_compress(&info, TRUE);
    while (info.next_scanline < info.image_height)
        write_row(&info, rgb, cmyk);
    jpeg_finish_compress(&info);
    jpeg_destroy_compress(&info);
    free(rgb);
    free(cmyk);
    return 0;
}
