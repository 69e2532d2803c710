/* SPDX-License-Identifier: Apache-2.0 */
/* A device over a file of pages. Each call does all of its bytes, or fails. */
#define _POSIX_C_SOURCE 200809L
#include "pinpool_threads.h"
#include <errno.h>
#include <fcntl.h>
#include <stdlib.h>
#include <unistd.h>

/* Where the image of a page begins. */
static off_t place(const pinpool_file *file, uint32_t page) { return (off_t)page * (off_t)file->page_bytes; }

static int read_all(void *of, uint32_t page, uint8_t *image, size_t length) {
    const pinpool_file *file = of;
    off_t at = place(file, page);
    while (length) {
        ssize_t came = pread(file->descriptor, image, length, at);
        if (came < 0 && errno == EINTR) continue;
        if (came <= 0) return 0;
        image += came, length -= (size_t)came, at += came;
    }
    return 1;
}

static int write_all(void *of, uint32_t page, const uint8_t *image, size_t length) {
    const pinpool_file *file = of;
    off_t at = place(file, page);
    while (length) {
        ssize_t went = pwrite(file->descriptor, image, length, at);
        if (went < 0 && errno == EINTR) continue;
        if (went <= 0) return 0;
        image += went, length -= (size_t)went, at += went;
    }
    return 1;
}

static int sync_all(void *of) {
    const pinpool_file *file = of;
    return fdatasync(file->descriptor) == 0;
}

/* Writes the image of each page: its number, the mark 0, and zeros. */
static int write_blank(pinpool_file *file, uint32_t pages) {
    uint8_t *image = calloc(1, file->page_bytes);
    uint32_t page;
    int went = image != NULL;
    for (page = 0; went && page < pages; page++) {
        image[0] = (uint8_t)(page >> 24);
        image[1] = (uint8_t)(page >> 16);
        image[2] = (uint8_t)(page >> 8);
        image[3] = (uint8_t)page;
        went = write_all(file, page, image, file->page_bytes);
    }
    free(image);
    return went && fsync(file->descriptor) == 0;
}

int pinpool_file_make(const char *path, uint32_t pages, size_t page_bytes) {
    pinpool_file file = {open(path, O_CREAT | O_EXCL | O_WRONLY | O_CLOEXEC, 0666), page_bytes};
    int went, why;
    if (file.descriptor < 0) return 0;
    went = write_blank(&file, pages);
    why = errno;
    went = pinpool_file_close(&file) && went;
    if (!went) unlink(path), errno = why;
    return went;
}

int pinpool_file_open(pinpool_file *file, const char *path, size_t page_bytes) {
    file->page_bytes = page_bytes;
    file->descriptor = open(path, O_RDWR | O_CLOEXEC);
    return file->descriptor >= 0;
}

int pinpool_file_close(pinpool_file *file) {
    int closed = close(file->descriptor) == 0;
    file->descriptor = -1;
    return closed;
}

pinpool_device pinpool_file_device(pinpool_file *file) {
    pinpool_device device = {file, read_all, write_all, sync_all};
    return device;
}
