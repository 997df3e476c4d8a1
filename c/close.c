/* The closings, which take a null pointer too; c/Makefile gives the proved ones these names. */
#include "nvmectl.h"
#include "nvmehost.h"

void nvmesgl_close_opened(nvmesgl *);
void nvmectl_close_opened(nvmectl *);
void nvmehost_close_opened(nvmehost *);

void nvmesgl_close(nvmesgl *handle) {
    if (handle) nvmesgl_close_opened(handle);
}

void nvmectl_close(nvmectl *handle) {
    if (handle) nvmectl_close_opened(handle);
}

void nvmehost_close(nvmehost *handle) {
    if (handle) nvmehost_close_opened(handle);
}
