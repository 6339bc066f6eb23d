// A plugin for qemu-user: counts the guest's instructions between marks. A guest makes a mark by asking for its parent's number.
// The few lines of the plugin interface that it needs are declared here, since Debian's qemu-user brings no header.
#include <stddef.h>
#include <stdint.h>
#include <stdio.h>
#include <string.h>

typedef uint64_t id_t_;
typedef struct info info;
struct block;
void qemu_plugin_register_vcpu_tb_trans_cb(id_t_, void (*)(id_t_, struct block *));
size_t qemu_plugin_tb_n_insns(const struct block *);
void qemu_plugin_register_vcpu_tb_exec_cb(struct block *, void (*)(unsigned, void *), int flags, void *);
void qemu_plugin_register_vcpu_syscall_cb(id_t_, void (*)(id_t_, unsigned, int64_t, uint64_t, uint64_t, uint64_t, uint64_t, uint64_t,
                                                         uint64_t, uint64_t, uint64_t));
void qemu_plugin_register_atexit_cb(id_t_, void (*)(id_t_, void *), void *);

#ifndef PLUGIN_VERSION
#define PLUGIN_VERSION 1
#endif
__attribute__((visibility("default"))) int qemu_plugin_version = PLUGIN_VERSION;

// getppid on x86-64.
enum { MARK = 110 };

static uint64_t count, since;
static int inside;
static FILE *out;

static void run(unsigned cpu, void *instructions)
{
    (void)cpu;
    count += (uintptr_t)instructions;
}

static void translate(id_t_ id, struct block *b)
{
    (void)id;
    qemu_plugin_register_vcpu_tb_exec_cb(b, run, 0, (void *)qemu_plugin_tb_n_insns(b));
}

// The first mark of a pair starts a stretch, the second ends it and writes its count.
static void called(id_t_ id, unsigned cpu, int64_t number, uint64_t a, uint64_t b, uint64_t c, uint64_t d, uint64_t e, uint64_t f,
                   uint64_t g, uint64_t h)
{
    (void)id, (void)cpu, (void)a, (void)b, (void)c, (void)d, (void)e, (void)f, (void)g, (void)h;
    if (number != MARK)
        return;
    if (inside)
        fprintf(out, "%llu\n", (unsigned long long)(count - since));
    inside = !inside;
    since = count;
}

static void done(id_t_ id, void *unused)
{
    (void)id, (void)unused;
    fclose(out);
}

__attribute__((visibility("default"))) int qemu_plugin_install(id_t_ id, const info *i, int argc, char **argv)
{
    (void)i;
    if (argc != 1 || strncmp(argv[0], "out=", 4) != 0 || !(out = fopen(argv[0] + 4, "w")))
        return -1;
    qemu_plugin_register_vcpu_tb_trans_cb(id, translate);
    qemu_plugin_register_vcpu_syscall_cb(id, called);
    qemu_plugin_register_atexit_cb(id, done, NULL);
    return 0;
}
