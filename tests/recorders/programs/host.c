/* host PLUGIN TRACE: a program that loads a plugin, unloads it while a thread that it served lives on, and is then ended by SIGTERM. */
#include <dlfcn.h>
#include <pthread.h>
#include <semaphore.h>
#include <signal.h>
#include <stdint.h>
#include <stdio.h>

static sem_t served, unloaded;
static void (*put)(uint64_t);

static void *serve(void *none) {
    put(2);
    sem_post(&served);
    sem_wait(&unloaded);
    return none;
}

int main(int argc, char **argv) {
    pthread_t thread;
    int (*begin)(const char *), (*end)(void);
    void *plugin = argc == 3 ? dlopen(argv[1], RTLD_NOW) : NULL;
    if (plugin == NULL)
        return 2;
    *(void **)&begin = dlsym(plugin, "begin");
    *(void **)&put = dlsym(plugin, "put");
    *(void **)&end = dlsym(plugin, "end");
    sem_init(&served, 0, 0);
    sem_init(&unloaded, 0, 0);
    if (begin(argv[2]) != 0)
        return 2;
    put(1);
    pthread_create(&thread, NULL, serve, NULL);
    sem_wait(&served);
    if (end() != 0 || dlclose(plugin) != 0)
        return 1;
    sem_post(&unloaded);
    pthread_join(thread, NULL);
    raise(SIGTERM);
    return 1;
}
