// The system calls of a Tock application on RV32, by TRD 104: the class in a4, the arguments in a0 to a3. What a
// call answers comes back in a0 to a3. Names and types are those of Tock's own C library, libtock-c, where it has them.

#ifndef LIBTOCK_TOCK_H
#define LIBTOCK_TOCK_H

#include <stdbool.h>
#include <stddef.h>
#include <stdint.h>

enum {
    TOCK_CLASS_YIELD,
    TOCK_CLASS_SUBSCRIBE,
    TOCK_CLASS_COMMAND,
    TOCK_CLASS_ALLOW_READWRITE,
    TOCK_CLASS_ALLOW_READONLY,
    TOCK_CLASS_MEMOP,
    TOCK_CLASS_EXIT,
    TOCK_CLASS_ALLOW_USERSPACE_READ
};

// TRD 104, "Error codes".
typedef enum {
    TOCK_STATUSCODE_SUCCESS,
    TOCK_STATUSCODE_FAIL,
    TOCK_STATUSCODE_BUSY,
    TOCK_STATUSCODE_ALREADY,
    TOCK_STATUSCODE_OFF,
    TOCK_STATUSCODE_RESERVE,
    TOCK_STATUSCODE_INVAL,
    TOCK_STATUSCODE_SIZE,
    TOCK_STATUSCODE_CANCEL,
    TOCK_STATUSCODE_NOMEM,
    TOCK_STATUSCODE_NOSUPPORT,
    TOCK_STATUSCODE_NODEVICE,
    TOCK_STATUSCODE_UNINSTALLED,
    TOCK_STATUSCODE_NOACK,
    TOCK_STATUSCODE_BADRVAL = 1024
} statuscode_t;

// What the functions of the drivers return: 0, or an error code below it.
typedef enum {
    RETURNCODE_SUCCESS = 0,
    RETURNCODE_FAIL = -TOCK_STATUSCODE_FAIL,
    RETURNCODE_EBUSY = -TOCK_STATUSCODE_BUSY,
    RETURNCODE_EALREADY = -TOCK_STATUSCODE_ALREADY,
    RETURNCODE_EOFF = -TOCK_STATUSCODE_OFF,
    RETURNCODE_ERESERVE = -TOCK_STATUSCODE_RESERVE,
    RETURNCODE_EINVAL = -TOCK_STATUSCODE_INVAL,
    RETURNCODE_ESIZE = -TOCK_STATUSCODE_SIZE,
    RETURNCODE_ECANCEL = -TOCK_STATUSCODE_CANCEL,
    RETURNCODE_ENOMEM = -TOCK_STATUSCODE_NOMEM,
    RETURNCODE_ENOSUPPORT = -TOCK_STATUSCODE_NOSUPPORT,
    RETURNCODE_ENODEVICE = -TOCK_STATUSCODE_NODEVICE,
    RETURNCODE_EUNINSTALLED = -TOCK_STATUSCODE_UNINSTALLED,
    RETURNCODE_ENOACK = -TOCK_STATUSCODE_NOACK,
    RETURNCODE_EBADRVAL = -TOCK_STATUSCODE_BADRVAL
} returncode_t;

// TRD 104, "Return Values": what the data are is told by the type.
typedef enum {
    TOCK_SYSCALL_FAILURE = 0,
    TOCK_SYSCALL_FAILURE_U32 = 1,
    TOCK_SYSCALL_FAILURE_U32_U32 = 2,
    TOCK_SYSCALL_FAILURE_U64 = 3,
    TOCK_SYSCALL_SUCCESS = 128,
    TOCK_SYSCALL_SUCCESS_U32 = 129,
    TOCK_SYSCALL_SUCCESS_U32_U32 = 130,
    TOCK_SYSCALL_SUCCESS_U64 = 131,
    TOCK_SYSCALL_SUCCESS_U32_U32_U32 = 132,
    TOCK_SYSCALL_SUCCESS_U32_U64 = 133
} syscall_rtype_t;

typedef struct {
    uint32_t type;
    uint32_t data[3];
} syscall_return_t;

static inline bool tock_is_success(syscall_return_t reply)
{
    return reply.type >= TOCK_SYSCALL_SUCCESS;
}

static inline returncode_t tock_status_to_returncode(statuscode_t status)
{
    return (returncode_t)-(int)status;
}

// What a command came to: the first datum of a failure is its error code.
static inline returncode_t tock_command_return_novalue_to_returncode(syscall_return_t reply)
{
    return tock_is_success(reply) ? RETURNCODE_SUCCESS : (returncode_t)-reply.data[0];
}

// The same, and the number that a success has; 0 where there is none.
static inline returncode_t tock_command_return_u32_to_returncode(syscall_return_t reply, uint32_t *number)
{
    *number = tock_is_success(reply) ? reply.data[0] : 0;
    return tock_command_return_novalue_to_returncode(reply);
}

// The kernel reads and writes what was lent to it, so the compiler must keep nothing of memory in registers across a
// call.
static inline syscall_return_t tock_system_call(uint32_t class, uint32_t first, uint32_t second, uint32_t third,
                                                uint32_t fourth)
{
    register uint32_t a0 __asm__("a0") = first;
    register uint32_t a1 __asm__("a1") = second;
    register uint32_t a2 __asm__("a2") = third;
    register uint32_t a3 __asm__("a3") = fourth;
    register uint32_t a4 __asm__("a4") = class;
    __asm__ volatile("ecall" : "+r"(a0), "+r"(a1), "+r"(a2), "+r"(a3) : "r"(a4) : "memory");
    return (syscall_return_t){a0, {a1, a2, a3}};
}

// An upcall runs inside of a yield, as if the yield had called it: it may change each register that a function need
// not keep. The return address is the kernel's to set.
#define TOCK_CHANGED_BY_AN_UPCALL \
    "memory", "ra", "t0", "t1", "t2", "t3", "t4", "t5", "t6", "a2", "a3", "a5", "a6", "a7"

// Yield-wait: returns once an upcall has run.
static inline void yield(void)
{
    register uint32_t a0 __asm__("a0") = 1;
    register uint32_t a4 __asm__("a4") = TOCK_CLASS_YIELD;
    __asm__ volatile("ecall" : "+r"(a0), "+r"(a4) : : TOCK_CHANGED_BY_AN_UPCALL, "a1");
}

// Yield-no-wait: runs an upcall where one is pending, and returns whether it did. The kernel writes that to a byte.
static inline int yield_no_wait(void)
{
    uint8_t has_run = 0;
    register uint32_t a0 __asm__("a0") = 0;
    register uint32_t a1 __asm__("a1") = (uint32_t)&has_run;
    register uint32_t a4 __asm__("a4") = TOCK_CLASS_YIELD;
    __asm__ volatile("ecall" : "+r"(a0), "+r"(a1), "+r"(a4) : : TOCK_CHANGED_BY_AN_UPCALL);
    return has_run;
}

// The arguments of an upcall that was waited for alone.
typedef struct {
    uint32_t data0, data1, data2;
} yield_waitfor_return_t;

// Yield-wait-for: returns with the arguments of the upcall of a driver and a number, once it comes, or with those of
// the first that is pending. No function of it runs, so it need not be subscribed; upcalls of other numbers stay
// pending.
static inline yield_waitfor_return_t yield_wait_for(uint32_t driver, uint32_t number)
{
    register uint32_t a0 __asm__("a0") = 2;
    register uint32_t a1 __asm__("a1") = driver;
    register uint32_t a2 __asm__("a2") = number;
    register uint32_t a4 __asm__("a4") = TOCK_CLASS_YIELD;
    __asm__ volatile("ecall" : "+r"(a0), "+r"(a1), "+r"(a2) : "r"(a4) : "memory");
    return (yield_waitfor_return_t){a0, a1, a2};
}

// Waits until an upcall has made the condition true.
static inline void yield_for(const bool *condition)
{
    while (!*condition) {
        yield();
    }
}

// The driver's three arguments, and what the application gave to subscribe.
typedef void subscribe_upcall(int first, int second, int third, void *userdata);

static inline syscall_return_t command(uint32_t driver, uint32_t number, uint32_t first, uint32_t second)
{
    return tock_system_call(TOCK_CLASS_COMMAND, driver, number, first, second);
}

// Whether the kernel has a driver, and lets this process use it.
static inline bool driver_exists(uint32_t driver)
{
    return tock_is_success(command(driver, 0, 0, 0));
}

// The calls that hand something to a driver, with their reply as it comes: of a success the data are the former
// function and word, or the former address and size.
static inline syscall_return_t tock_subscribe(uint32_t driver, uint32_t number, subscribe_upcall *function,
                                              void *userdata)
{
    return tock_system_call(TOCK_CLASS_SUBSCRIBE, driver, number, (uint32_t)function, (uint32_t)userdata);
}

static inline syscall_return_t tock_allow_readwrite(uint32_t driver, uint32_t number, void *buffer, size_t size)
{
    return tock_system_call(TOCK_CLASS_ALLOW_READWRITE, driver, number, (uint32_t)buffer, size);
}

static inline syscall_return_t tock_allow_readonly(uint32_t driver, uint32_t number, const void *buffer, size_t size)
{
    return tock_system_call(TOCK_CLASS_ALLOW_READONLY, driver, number, (uint32_t)buffer, size);
}

static inline syscall_return_t tock_allow_userspace_read(uint32_t driver, uint32_t number, volatile void *buffer,
                                                         size_t size)
{
    return tock_system_call(TOCK_CLASS_ALLOW_USERSPACE_READ, driver, number, (uint32_t)buffer, size);
}

// What a subscribe came to: the former function and data, or an error code.
typedef struct {
    bool success;
    subscribe_upcall *callback;
    void *userdata;
    statuscode_t status;
} subscribe_return_t;

static inline subscribe_return_t subscribe(uint32_t driver, uint32_t number, subscribe_upcall *function, void *userdata)
{
    syscall_return_t reply = tock_subscribe(driver, number, function, userdata);
    if (!tock_is_success(reply)) {
        return (subscribe_return_t){false, NULL, NULL, (statuscode_t)reply.data[0]};
    }
    return (subscribe_return_t){true, (subscribe_upcall *)reply.data[0], (void *)reply.data[1],
                                TOCK_STATUSCODE_SUCCESS};
}

// What an allow came to: the former address and size, or an error code.
typedef struct {
    bool success;
    void *ptr;
    size_t size;
    statuscode_t status;
} allow_rw_return_t;

typedef struct {
    bool success;
    const void *ptr;
    size_t size;
    statuscode_t status;
} allow_ro_return_t;

typedef allow_rw_return_t allow_userspace_r_return_t;

static inline allow_rw_return_t tock_allow_return(syscall_return_t reply)
{
    if (!tock_is_success(reply)) {
        return (allow_rw_return_t){false, NULL, 0, (statuscode_t)reply.data[0]};
    }
    return (allow_rw_return_t){true, (void *)reply.data[0], reply.data[1], TOCK_STATUSCODE_SUCCESS};
}

// Lends a buffer. NULL and 0 take one back.
static inline allow_rw_return_t allow_readwrite(uint32_t driver, uint32_t number, void *buffer, size_t size)
{
    return tock_allow_return(tock_allow_readwrite(driver, number, buffer, size));
}

static inline allow_ro_return_t allow_readonly(uint32_t driver, uint32_t number, const void *buffer, size_t size)
{
    allow_rw_return_t former = tock_allow_return(tock_allow_readonly(driver, number, buffer, size));
    return (allow_ro_return_t){former.success, former.ptr, former.size, former.status};
}

// A buffer that the application may read while the kernel writes it.
static inline allow_userspace_r_return_t allow_userspace_read(uint32_t driver, uint32_t number, volatile void *buffer,
                                                              size_t size)
{
    return tock_allow_return(tock_allow_userspace_read(driver, number, buffer, size));
}

static inline returncode_t tock_subscribe_return_to_returncode(subscribe_return_t reply)
{
    return reply.success ? RETURNCODE_SUCCESS : tock_status_to_returncode(reply.status);
}

static inline returncode_t tock_allow_rw_return_to_returncode(allow_rw_return_t reply)
{
    return reply.success ? RETURNCODE_SUCCESS : tock_status_to_returncode(reply.status);
}

static inline returncode_t tock_allow_ro_return_to_returncode(allow_ro_return_t reply)
{
    return reply.success ? RETURNCODE_SUCCESS : tock_status_to_returncode(reply.status);
}

static inline returncode_t tock_allow_userspace_r_return_to_returncode(allow_userspace_r_return_t reply)
{
    return tock_allow_rw_return_to_returncode(reply);
}

// TRD 104, "Memop".
enum {
    TOCK_MEMOP_BRK,
    TOCK_MEMOP_SBRK,
    TOCK_MEMOP_RAM_START,
    TOCK_MEMOP_RAM_END,
    TOCK_MEMOP_FLASH_START,
    TOCK_MEMOP_FLASH_END,
    TOCK_MEMOP_GRANTS_START,
    TOCK_MEMOP_REGIONS,
    TOCK_MEMOP_REGION_START,
    TOCK_MEMOP_REGION_END
};

static inline syscall_return_t memop(uint32_t operation, uint32_t argument)
{
    return tock_system_call(TOCK_CLASS_MEMOP, operation, argument, 0, 0);
}

// The process's block: its first address, and the first one after it.
static inline void *tock_app_memory_begins_at(void)
{
    return (void *)memop(TOCK_MEMOP_RAM_START, 0).data[0];
}

static inline void *tock_app_memory_ends_at(void)
{
    return (void *)memop(TOCK_MEMOP_RAM_END, 0).data[0];
}

// The object in flash: where its header begins, and the first address after it.
static inline void *tock_app_flash_begins_at(void)
{
    return (void *)memop(TOCK_MEMOP_FLASH_START, 0).data[0];
}

static inline void *tock_app_flash_ends_at(void)
{
    return (void *)memop(TOCK_MEMOP_FLASH_END, 0).data[0];
}

// The first address of the grants, which lie at the end of the block.
static inline void *tock_app_grant_begins_at(void)
{
    return (void *)memop(TOCK_MEMOP_GRANTS_START, 0).data[0];
}

// The writeable regions of flash that the header names; NULL where there is none of that number.
static inline int tock_app_number_writeable_flash_regions(void)
{
    return (int)memop(TOCK_MEMOP_REGIONS, 0).data[0];
}

static inline void *tock_app_writeable_flash_region_begins_at(int region)
{
    syscall_return_t reply = memop(TOCK_MEMOP_REGION_START, region);
    return tock_is_success(reply) ? (void *)reply.data[0] : NULL;
}

static inline void *tock_app_writeable_flash_region_ends_at(int region)
{
    syscall_return_t reply = memop(TOCK_MEMOP_REGION_END, region);
    return tock_is_success(reply) ? (void *)reply.data[0] : NULL;
}

// Exit-terminate: the process has ended, with a completion code.
static inline _Noreturn void tock_exit(uint32_t completion_code)
{
    tock_system_call(TOCK_CLASS_EXIT, 0, completion_code, 0, 0);
    __builtin_unreachable();
}

// Exit-restart: the process starts again.
static inline _Noreturn void tock_restart(uint32_t completion_code)
{
    tock_system_call(TOCK_CLASS_EXIT, 1, completion_code, 0, 0);
    __builtin_unreachable();
}

// Ends the application with a line that says where, and the code 1, where a call did not return what was expected.
void tock_expect(int expected, int actual, const char *file, unsigned line);
#define TOCK_EXPECT(expected, actual) tock_expect((expected), (actual), __FILE__, __LINE__)

// What a code means, in a word of TRD 104.
const char *tock_strerr(statuscode_t status);
const char *tock_strrcode(returncode_t code);

#endif
