/* The parts of the rest of a kernel that the random core needs, for a process of one thread in user space. Each header
   that the sources include, and that is not taken along, has this text. Locks do nothing, since there is no other
   thread; harness.c gives time, cycle counter and hardware words. */
#ifndef STUB_H
#define STUB_H

#include <errno.h>
#include <fcntl.h>
#include <limits.h>
#include <stdbool.h>
#include <stddef.h>
#include <stdint.h>
#include <stdio.h>
#include <stdlib.h>
#include <string.h>
#include <sys/types.h>

/* Configuration */

#define CONFIG_64BIT 1
#define CONFIG_PAGE_SHIFT 12
#define CONFIG_SMP 1
#define CONFIG_VDSO_GETRANDOM 1
#define CONFIG_VMGENID 1
#define SET_1 ignored,
#define SECOND(ignored, value, ...) value
#define PICKED(mark) SECOND(mark 1, 0, 0)
#define JOINED(option) PICKED(SET_##option)
#define IS_ENABLED(option) JOINED(option)
#define IS_MODULE(option) 0
#define HZ 1000UL
#define PAGE_SIZE 4096UL
#define SMP_CACHE_BYTES 64
#define INITIAL_JIFFIES 0
#define KBUILD_MODNAME "random"

/* Types */

typedef uint8_t u8;
typedef uint16_t u16, __le16;
typedef uint32_t u32, __u32, __le32;
typedef uint64_t u64, __le64;
typedef int64_t ktime_t, time64_t;
typedef int spinlock_t, local_lock_t, poll_table;
typedef unsigned int __poll_t;
typedef struct {
    int count;
} atomic_t;
struct fasync_struct;
struct task_struct;
struct cpumask {
    int count;
};
struct file {
    unsigned int f_flags;
};
struct kiocb {
    int ki_flags;
    struct file *ki_filp;
};
struct file_operations {
    const void *read_iter, *write_iter, *poll, *unlocked_ioctl, *compat_ioctl, *fasync, *llseek, *splice_read;
    const void *splice_write;
};
struct iov_iter {
    u8 *bytes;
    size_t left;
};
struct notifier_block {
    int (*notifier_call)(struct notifier_block *, unsigned long, void *);
};
struct raw_notifier_head {
    void *first;
};
struct notifier_list {
    spinlock_t lock;
    struct raw_notifier_head head;
};
struct pt_regs {
    unsigned long ip;
};
struct ratelimit_state {
    int missed;
};
struct static_key_false {
    bool enabled;
};
struct timer_list {
    unsigned long expires;
    void (*function)(struct timer_list *);
};
struct work_struct {
    void (*func)(struct work_struct *);
};
struct delayed_work {
    struct work_struct work;
};
struct vdso_rng_data {
    u64 generation;
    u8 is_ready;
};
struct workqueue_struct;

/* The machine, by harness.c */

extern unsigned long jiffies, cycles, cpu_offset;
extern struct pt_regs interrupted;
extern struct vdso_rng_data rng_data;
extern struct workqueue_struct *const system_unbound_wq;
size_t hardware_words(unsigned long *words, size_t count);
void passed(const char *place);
bool queue_delayed_work(struct workqueue_struct *queue, struct delayed_work *work, unsigned long delay);
void add_timer_on(struct timer_list *timer, int cpu);
ssize_t getrandom_syscall(void *buffer, size_t length, unsigned int flags);
void *part_of_cpu(void *part, unsigned int cpu);

#define arch_get_random_seed_longs(words, count) hardware_words(words, count)
#define arch_get_random_longs(words, count) 0
#define random_get_entropy() cycles
#define ktime_get_seconds() ((time64_t)(jiffies / HZ))
#define ktime_get() 0
#define ktime_get_boottime() 0
#define ktime_get_real() 0
#define time_is_before_jiffies(moment) ((long)((moment) - jiffies) < 0)
#define get_irq_regs() (&interrupted)
#define instruction_pointer(regs) ((regs)->ip)
#define _RET_IP_ 0
#define in_hardirq() 0
#define timer_pending(timer) 0
#define static_key_initialized 1
#define queue_work(queue, work) ((work)->func(work))
#define __arch_get_k_vdso_rng_data() (&rng_data)
#define __arch_get_vdso_rng_data() (&rng_data)
#define wait_event_interruptible_timeout(queue, condition, timeout) (-ERESTARTSYS)
#define capable(what) 1
#define put_user(value, to) (*(to) = (value), 0)
#define get_user(value, from) ((value) = *(from), 0)
#define init_utsname() ""
#define kthread_should_stop() 1

static inline size_t copy_to_iter(const void *from, size_t count, struct iov_iter *to)
{
    size_t copied = count < to->left ? count : to->left;
    memcpy(to->bytes, from, copied);
    to->bytes += copied;
    to->left -= copied;
    return copied;
}

static inline size_t copy_from_iter(void *to, size_t count, struct iov_iter *from)
{
    size_t copied = count < from->left ? count : from->left;
    memcpy(to, from->bytes, copied);
    from->bytes += copied;
    from->left -= copied;
    return copied;
}

#define iov_iter_count(iter) ((iter)->left)
#define import_ubuf(direction, buffer, length, iter) \
    ((iter)->bytes = (u8 *)(buffer), (iter)->left = (length), 0)

/* A CPU's parts are copies of one section, each at its own offset. */

#define DEFINE_PER_CPU(type, name) __attribute__((section("cpu_parts"))) type name
#define per_cpu_ptr(part, cpu) ((typeof(part))part_of_cpu(part, cpu))
#define this_cpu_ptr(part) ((typeof(part))((char *)(part) + cpu_offset))
#define raw_cpu_ptr(part) this_cpu_ptr(part)

/* Memory. Its reads and writes here are places at which harness.c can act. */

#define READ_ONCE(value) ({ typeof(value) read_ = *(volatile typeof(value) *)&(value); passed(#value); read_; })
#define WRITE_ONCE(to, value) (*(volatile typeof(to) *)&(to) = (value))
#define smp_store_release(to, value) (*(to) = (value))
#define smp_rmb() passed("read barrier")
#define barrier() passed("barrier")
#define try_cmpxchg(to, old, new_) (*(to) == *(old) ? (*(to) = (new_), true) : (*(old) = *(to), false))
#define atomic_set(value, to) ((value)->count = (to))
#define atomic_inc_return(value) (++(value)->count)
#define __get_unaligned_t(type, from) ({ type got_; memcpy(&got_, from, sizeof(got_)); got_; })
#define __put_unaligned_t(type, value, to) do { type put_ = (value); memcpy(to, &put_, sizeof(put_)); } while (0)

static inline void put_unaligned_le32(u32 value, void *to)
{
    memcpy(to, &value, sizeof(value));
}

static inline u32 get_unaligned_le32(const void *from)
{
    u32 value;
    memcpy(&value, from, sizeof(value));
    return value;
}

#define memzero_explicit(at, count) memset(at, 0, count)
#define cpu_to_le32_array(words, count) ((void)0)
#define le32_to_cpu_array(words, count) ((void)0)
#define le16_to_cpup(from) (*(from))
#define le32_to_cpup(from) (*(from))
#define le64_to_cpup(from) (*(from))

/* Arithmetic */

#define ARRAY_SIZE(list) (sizeof(list) / sizeof((list)[0]))
#define DIV_ROUND_UP(n, d) (((n) + (d) - 1) / (d))
#define IS_ALIGNED(value, to) (((value) & ((to) - 1)) == 0)
#define PTR_ALIGN(at, to) ((typeof(at))(((uintptr_t)(at) + (to) - 1) & ~((uintptr_t)(to) - 1)))
#define U16_MAX UINT16_MAX
#define min_t(type, a, b) ({ passed(#a); type a_ = (a), b_ = (b); a_ < b_ ? a_ : b_; })
#define max_t(type, a, b) ({ type a_ = (a), b_ = (b); a_ > b_ ? a_ : b_; })
#define min(a, b) ({ typeof(a) a_ = (a); typeof(b) b_ = (b); a_ < b_ ? a_ : b_; })
#define max(a, b) ({ typeof(a) a_ = (a); typeof(b) b_ = (b); a_ > b_ ? a_ : b_; })
#define clamp_t(type, value, low, high) min_t(type, max_t(type, value, low), high)
#define container_of(at, type, field) ((type *)((char *)(at) - offsetof(type, field)))
#define swab(value) __builtin_bswap64(value)

static inline int fls(unsigned int value)
{
    return value ? 32 - __builtin_clz(value) : 0;
}

static inline u32 rol32(u32 value, unsigned int by)
{
    return value << (by & 31) | value >> (-by & 31);
}

static inline u32 ror32(u32 value, unsigned int by)
{
    return value >> (by & 31) | value << (-by & 31);
}

static inline u64 rol64(u64 value, unsigned int by)
{
    return value << (by & 63) | value >> (-by & 63);
}

/* Words of the language */

#define __init
#define __initdata
#define __initconst
#define __latent_entropy
#define __cold
#define __read_mostly
#define __user
#define __always_inline inline __attribute__((always_inline))
#define __aligned(to) __attribute__((aligned(to)))
#define __weak __attribute__((weak))
#define __alias(name) __attribute__((alias(#name)))
#define likely(condition) (condition)
#define unlikely(condition) (condition)
#define BUG_ON(condition) do { if (condition) abort(); } while (0)
#define BUILD_BUG_ON(condition) _Static_assert(!(condition), "")
#define WARN_ON(condition) ((condition) ? abort(), true : false)
#define WARN_ON_ONCE(condition) WARN_ON(condition)
#define WARN(condition, ...) ((void)(condition))
#define EXPORT_SYMBOL(name)
#define EXPORT_SYMBOL_GPL(name)
#define MODULE_LICENSE(text)
#define MODULE_AUTHOR(text)
#define MODULE_DESCRIPTION(text)
#define MODULE_PARM_DESC(name, text)
#define module_param_named(name, value, type, mode)
#define module_init(name) void *const start_of_##name = (void *)name;
#define early_param(name, function) void *const option_of_##function = (void *)function;
#define SYSCALL_DEFINE3(name, t1, a1, t2, a2, t3, a3) static long call_##name(t1 a1, t2 a2, t3 a3)

/* Locks, lists and queues of which nothing depends here */

#define __SPIN_LOCK_UNLOCKED(name) 0
#define DEFINE_SPINLOCK(name) spinlock_t name
#define INIT_LOCAL_LOCK(name) 0
#define spin_lock(lock) ((void)(lock))
#define spin_unlock(lock) ((void)(lock))
#define spin_lock_irqsave(lock, flags) ((void)(lock), (flags) = 0)
#define spin_unlock_irqrestore(lock, flags) ((void)(lock), (void)(flags))
#define local_lock_irqsave(lock, flags) ((flags) = 0)
#define local_unlock_irqrestore(lock, flags) ((void)(flags))
#define local_irq_disable() ((void)0)
#define local_irq_enable() ((void)0)
#define preempt_disable() ((void)0)
#define preempt_enable() ((void)0)
#define DEFINE_STATIC_KEY_FALSE(name) struct static_key_false name
#define static_branch_likely(key) ((key)->enabled)
#define static_branch_enable(key) ((key)->enabled = true)
#define DECLARE_WAIT_QUEUE_HEAD(name) int name
#define DECLARE_WORK(name, function) struct work_struct name = {function}
#define DECLARE_DELAYED_WORK(name, function) struct delayed_work name = {{function}}
#define ATOMIC_NOTIFIER_HEAD(name) struct notifier_list name
#define BLOCKING_NOTIFIER_HEAD(name) struct notifier_list name
#define raw_notifier_chain_register(list, block) ((void)(list), (void)(block), 0)
#define blocking_notifier_chain_register(list, block) ((void)(list), (void)(block), 0)
#define blocking_notifier_chain_unregister(list, block) ((void)(list), (void)(block), 0)
#define atomic_notifier_call_chain(list, value, data) ((void)(list))
#define blocking_notifier_call_chain(list, value, data) ((void)(list))
#define register_pm_notifier(block) ((void)(block), 0)
#define RATELIMIT_STATE_INIT_FLAGS(name, interval, burst, flags) {0}
#define __ratelimit(state) 0
#define __TIMER_INITIALIZER(called, flags) {.function = called}
#define timer_setup_on_stack(timer, called, flags) ((timer)->function = (called))
#define try_to_del_timer_sync(timer) ((void)(timer), 0)
#define del_timer_sync(timer) ((void)(timer))
#define destroy_timer_on_stack(timer) ((void)(timer))
#define wake_up_interruptible(queue) ((void)(queue))
#define kill_fasync(list, signal, band) ((void)(list))
#define fasync_helper(fd, file, on, list) ((void)(list), 0)
#define poll_wait(file, queue, wait) ((void)(queue))
#define schedule_timeout_interruptible(timeout) ((void)(timeout))
#define schedule() ((void)0)
#define cond_resched() ((void)0)
#define signal_pending(task) 0
#define current ((struct task_struct *)0)
#define pr_notice(...) ((void)0)
#define kstrtobool(text, to) ((void)(text), *(to) = true, 0)
#define add_latent_entropy() ((void)0)
#define cpumask_and(to, a, b) ((to)->count = 1)
#define cpumask_weight(mask) ((unsigned int)(mask)->count)
#define cpumask_next(cpu, mask) ((void)(mask), (cpu) + 1)
#define cpumask_first(mask) 0
#define housekeeping_cpumask(type) cpu_online_mask
#define smp_processor_id() 0
#define raw_smp_processor_id() 0
#define nr_cpu_ids 1
#define compat_ptr_ioctl NULL
#define noop_llseek NULL
#define copy_splice_read NULL
#define iter_file_splice_write NULL
static const struct cpumask online_ = {1};
#define cpu_online_mask (&online_)

enum {
    ERESTARTSYS = 512,
    CAP_SYS_ADMIN = 0,
    EPOLLIN = 1,
    EPOLLOUT = 4,
    EPOLLRDNORM = 64,
    EPOLLWRNORM = 256,
    POLL_IN = 1,
    IOCB_NOWAIT = 8,
    IOCB_NOIO = 16,
    PM_RESTORE_PREPARE = 5,
    PM_POST_SUSPEND = 4,
    PROT_READ = 1,
    PROT_WRITE = 2,
    MAP_DROPPABLE = 8,
    MAP_ANONYMOUS = 32
};

#ifndef SIGIO
#define SIGIO 29
#endif
#define _IO(type, number) (number)
#define _IOR(type, number, of) (number)
#define _IOW(type, number, of) (number)
#include <uapi/linux/random.h>

#endif
