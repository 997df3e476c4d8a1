/*
 * Asks an NVMe function what nvme-cli asks: identify ADDRESS FOLDER
 *
 * Writes what Identify brings of the controller and of namespaces 1 and 2 into the files ctrl, ns1 and ns2 of the folder, and what Get Features, Number of Queues, tells into
 * the file queues, as eight hexadecimal digits.
 */
#include "nvme.h"

#include <stdio.h>

enum { IDENTIFY = 0x06, GET_FEATURES = 0x0A, OF_NAMESPACE = 0, OF_CONTROLLER = 1, NUMBER_OF_QUEUES = 7 };

static struct nvme nvme;

static FILE *opened(const char *folder, const char *name) {
    char path[256];
    snprintf(path, sizeof path, "%s/%s", folder, name);
    FILE *file = fopen(path, "wb");
    need_system(file != NULL, "a file cannot be written");
    return file;
}

static void keep(const char *folder, const char *name, uint32_t what, uint32_t nsid) {
    uint8_t data[NVME_PAGE];
    nvmesgl_admin command = {.size = sizeof command, .opcode = IDENTIFY, .nsid = nsid, .page = NVMESGL_PAGE_WRITTEN, .bytes = NVME_PAGE, .cdw10 = what};
    nvme_admin(&nvme, &command, data, "Identify fails");
    FILE *file = opened(folder, name);
    need_system(fwrite(data, 1, NVME_PAGE, file) == NVME_PAGE && fclose(file) == 0, "a file cannot be written");
}

static void keep_queues(const char *folder) {
    nvmesgl_admin command = {.size = sizeof command, .opcode = GET_FEATURES, .cdw10 = NUMBER_OF_QUEUES};
    FILE *file = opened(folder, "queues");
    fprintf(file, "%08x\n", nvme_admin(&nvme, &command, NULL, "Get Features fails"));
    need_system(fclose(file) == 0, "a file cannot be written");
}

int main(int count, char **words) {
    need(count == 3, "identify ADDRESS FOLDER");
    struct nvme_options options = {.address = words[1], .nsid = 1, .queues = 1, .pages = 64, .entries = 16, .segment = 16};
    nvme_start(&nvme, &options);
    keep(words[2], "ctrl", OF_CONTROLLER, 0);
    keep(words[2], "ns1", OF_NAMESPACE, 1);
    keep(words[2], "ns2", OF_NAMESPACE, 2);
    keep_queues(words[2]);
    nvme_stop(&nvme);
    return 0;
}
