#include "vfio.h"

#include <fcntl.h>
#include <linux/pci_regs.h>
#include <linux/vfio.h>
#include <poll.h>
#include <stdio.h>
#include <stdlib.h>
#include <string.h>
#include <sys/eventfd.h>
#include <sys/ioctl.h>
#include <sys/mman.h>
#include <time.h>
#include <unistd.h>

enum { MOST_VECTORS = 65, PATIENCE = 20000 /* milliseconds */ };

void need(bool is_true, const char *sentence) {
    if (is_true) return;
    fflush(stdout);
    fprintf(stderr, "%s\n", sentence);
    exit(2);
}

void need_system(bool is_true, const char *sentence) {
    if (is_true) return;
    fflush(stdout);
    perror(sentence);
    exit(2);
}

double seconds(void) {
    struct timespec time;
    clock_gettime(CLOCK_MONOTONIC, &time);
    return (double)time.tv_sec + (double)time.tv_nsec / 1e9;
}

/* The group of the function, as Linux numbers it. */
static int open_group(const char *address) {
    char link[128], target[256], path[300];
    snprintf(link, sizeof link, "/sys/bus/pci/devices/%s/iommu_group", address);
    ssize_t length = readlink(link, target, sizeof target - 1);
    need_system(length > 0, "no such PCI function, or no IOMMU is over it");
    target[length] = '\0';
    snprintf(path, sizeof path, "/dev/vfio/%s", strrchr(target, '/') + 1);
    int group = open(path, O_RDWR);
    need_system(group >= 0, "the function's IOMMU group cannot be opened: is it bound to vfio-pci?");
    return group;
}

static struct vfio_region_info region(const struct vfio *vfio, uint32_t index) {
    struct vfio_region_info info = {.argsz = sizeof info, .index = index};
    need_system(ioctl(vfio->device, VFIO_DEVICE_GET_REGION_INFO, &info) == 0, "a region of the function is not told");
    return info;
}

static void let_it_master_the_bus(const struct vfio *vfio) {
    off_t at = (off_t)region(vfio, VFIO_PCI_CONFIG_REGION_INDEX).offset + PCI_COMMAND;
    uint16_t command;
    need_system(pread(vfio->device, &command, sizeof command, at) == sizeof command, "the command register cannot be read");
    command |= PCI_COMMAND_MASTER | PCI_COMMAND_MEMORY;
    need_system(pwrite(vfio->device, &command, sizeof command, at) == sizeof command, "the command register cannot be written");
}

void vfio_open(struct vfio *vfio, const char *address) {
    int group = open_group(address);
    *vfio = (struct vfio){.container = open("/dev/vfio/vfio", O_RDWR), .event = -1};
    need_system(vfio->container >= 0, "/dev/vfio/vfio cannot be opened");
    need_system(ioctl(group, VFIO_GROUP_SET_CONTAINER, &vfio->container) == 0, "the group does not go into a container: are all its functions bound to vfio-pci?");
    need_system(ioctl(vfio->container, VFIO_SET_IOMMU, VFIO_TYPE1v2_IOMMU) == 0, "the IOMMU is of another type");
    vfio->device = ioctl(group, VFIO_GROUP_GET_DEVICE_FD, address);
    need_system(vfio->device >= 0, "the function is not in its group");
    struct vfio_region_info bar = region(vfio, VFIO_PCI_BAR0_REGION_INDEX);
    void *registers = mmap(NULL, bar.size, PROT_READ | PROT_WRITE, MAP_SHARED, vfio->device, (off_t)bar.offset);
    need_system(registers != MAP_FAILED, "the registers cannot be mapped");
    vfio->bar = registers;
    let_it_master_the_bus(vfio);
}

void vfio_map(struct vfio *vfio, uint64_t at, void *memory, uint64_t size, uint32_t rights) {
    struct vfio_iommu_type1_dma_map map = {.argsz = sizeof map, .vaddr = (uintptr_t)memory, .iova = at, .size = size};
    if (rights & VFIO_READS) map.flags |= VFIO_DMA_MAP_FLAG_READ;
    if (rights & VFIO_WRITES) map.flags |= VFIO_DMA_MAP_FLAG_WRITE;
    need_system(ioctl(vfio->container, VFIO_IOMMU_MAP_DMA, &map) == 0, "memory cannot be mapped for the device");
    vfio->maps++;
}

uint64_t vfio_unmap(struct vfio *vfio, uint64_t at, uint64_t size) {
    struct vfio_iommu_type1_dma_unmap unmap = {.argsz = sizeof unmap, .iova = at, .size = size};
    need_system(ioctl(vfio->container, VFIO_IOMMU_UNMAP_DMA, &unmap) == 0, "memory cannot be taken back from the device");
    vfio->unmaps++;
    return unmap.size;
}

void vfio_interrupts(struct vfio *vfio, unsigned vectors) {
    struct {
        struct vfio_irq_set set;
        int32_t events[MOST_VECTORS];
    } asked = {.set = {.flags = VFIO_IRQ_SET_DATA_EVENTFD | VFIO_IRQ_SET_ACTION_TRIGGER, .index = VFIO_PCI_MSIX_IRQ_INDEX, .count = vectors}};
    need(vectors <= MOST_VECTORS, "too many vectors");
    vfio->event = eventfd(0, 0);
    need_system(vfio->event >= 0, "no event for the interrupts");
    for (unsigned vector = 0; vector < vectors; vector++) asked.events[vector] = vfio->event;
    asked.set.argsz = (uint32_t)(sizeof asked.set + vectors * sizeof asked.events[0]);
    need_system(ioctl(vfio->device, VFIO_DEVICE_SET_IRQS, &asked) == 0, "the MSI-X vectors are not given");
}

bool vfio_wait(struct vfio *vfio) {
    struct pollfd event = {.fd = vfio->event, .events = POLLIN};
    uint64_t count;
    return poll(&event, 1, PATIENCE) == 1 && read(vfio->event, &count, sizeof count) == sizeof count;
}
