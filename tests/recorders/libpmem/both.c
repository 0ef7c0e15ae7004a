/* both FOLDER: a file by libpmem and another by libpmem2, in one trace. */
#include <libpmem.h>
#include <libpmem2.h>

#include <fcntl.h>
#include <unistd.h>

int main(int argc, char **argv) {
    struct pmem2_config *config;
    struct pmem2_source *source;
    struct pmem2_map *map;
    size_t length;
    if (argc != 2 || chdir(argv[1]) != 0)
        return 2;
    char *one = (char *)pmem_map_file("one", 4096, PMEM_FILE_CREATE, 0666, &length, NULL);
    int file = open("two", O_RDWR | O_CREAT, 0666);
    if (one == NULL || ftruncate(file, 4096) != 0 || pmem2_config_new(&config) != 0 || pmem2_source_from_fd(&source, file) != 0)
        return 1;
    pmem2_config_set_required_store_granularity(config, PMEM2_GRANULARITY_CACHE_LINE);
    if (pmem2_map_new(&map, config, source) != 0)
        return 1;
    pmem_memset(one, 1, 8, PMEM_F_MEM_NODRAIN);
    pmem2_get_memset_fn(map)(pmem2_map_get_address(map), 2, 8, 0);
    return pmem2_source_delete(&source) + pmem2_config_delete(&config);
}
