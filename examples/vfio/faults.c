#include "faults.h"

#include <errno.h>
#include <fcntl.h>
#include <stdio.h>
#include <string.h>
#include <unistd.h>

enum { SETTLES = 200000 /* microseconds */ };

static int kernel_log = -1;

void faults_begin(void) {
    kernel_log = open("/dev/kmsg", O_RDONLY | O_NONBLOCK);
    if (kernel_log >= 0) lseek(kernel_log, 0, SEEK_END);
}

int faults_told(const char *blanks) {
    char line[2048];
    int count = 0;
    ssize_t length;
    usleep(SETTLES);
    while ((length = read(kernel_log, line, sizeof line - 1)) > 0 || (length < 0 && errno == EPIPE)) {
        if (length < 0) continue;
        line[length] = '\0';
        char *text = strchr(line, ';');
        if (text == NULL || strstr(text, "fault addr") == NULL) continue;
        count++;
        if (blanks != NULL) printf("%s%.*s\n", blanks, (int)strcspn(text + 1, "\n"), text + 1);
    }
    return count;
}
