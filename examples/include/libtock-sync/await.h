// Requests to a driver that are waited for, whatever the driver: while other functions run, or alone.

#ifndef LIBTOCK_SYNC_AWAIT_H
#define LIBTOCK_SYNC_AWAIT_H

#include <libtock/tock.h>

// What came of a request to a driver: whether its upcall has run, and with which arguments.
struct tock_completion {
    bool is_done;
    uint32_t arguments[3];
};

// The upcall of every request that is waited for.
static inline void tock_complete(int first, int second, int third, void *userdata)
{
    struct tock_completion *completion = userdata;
    completion->is_done = true;
    completion->arguments[0] = first;
    completion->arguments[1] = second;
    completion->arguments[2] = third;
}

// What a driver is asked for, and the number of the upcall that ends it.
struct tock_request {
    uint32_t driver, command, first, second, upcall;
};

// Makes a request, waits for its upcall, and takes the upcall back. A request that is refused has none. The functions
// of other upcalls run meanwhile; they must leave the driver alone, whose upcall this is.
static inline returncode_t tock_await(struct tock_request request, struct tock_completion *completion)
{
    completion->is_done = false;
    returncode_t code = tock_command_return_novalue_to_returncode(
        tock_subscribe(request.driver, request.upcall, tock_complete, completion));
    if (code != RETURNCODE_SUCCESS) {
        return code;
    }
    code = tock_command_return_novalue_to_returncode(
        command(request.driver, request.command, request.first, request.second));
    if (code == RETURNCODE_SUCCESS) {
        yield_for(&completion->is_done);
    }
    tock_subscribe(request.driver, request.upcall, NULL, NULL);
    return code;
}

// The same, with a buffer that is lent meanwhile and taken back, by its number: for the driver to read, or to write.
static inline returncode_t tock_await_reading(struct tock_request request, uint32_t number, const void *buffer,
                                              size_t size, struct tock_completion *completion)
{
    returncode_t code = tock_command_return_novalue_to_returncode(
        tock_allow_readonly(request.driver, number, buffer, size));
    if (code == RETURNCODE_SUCCESS) {
        code = tock_await(request, completion);
        tock_allow_readonly(request.driver, number, NULL, 0);
    }
    return code;
}

static inline returncode_t tock_await_writing(struct tock_request request, uint32_t number, void *buffer, size_t size,
                                              struct tock_completion *completion)
{
    returncode_t code = tock_command_return_novalue_to_returncode(
        tock_allow_readwrite(request.driver, number, buffer, size));
    if (code == RETURNCODE_SUCCESS) {
        code = tock_await(request, completion);
        tock_allow_readwrite(request.driver, number, NULL, 0);
    }
    return code;
}

// Makes a request and waits for its upcall alone: no function runs meanwhile, so it may be made from within one. A
// function is subscribed all the same, since the kernel keeps no upcall without one that comes before the wait.
static inline returncode_t tock_await_alone(struct tock_request request, struct tock_completion *completion)
{
    returncode_t code = tock_command_return_novalue_to_returncode(
        tock_subscribe(request.driver, request.upcall, tock_complete, completion));
    if (code != RETURNCODE_SUCCESS) {
        return code;
    }
    code = tock_command_return_novalue_to_returncode(
        command(request.driver, request.command, request.first, request.second));
    if (code == RETURNCODE_SUCCESS) {
        yield_waitfor_return_t came = yield_wait_for(request.driver, request.upcall);
        *completion = (struct tock_completion){true, {came.data0, came.data1, came.data2}};
    }
    tock_subscribe(request.driver, request.upcall, NULL, NULL);
    return code;
}

static inline returncode_t tock_await_alone_reading(struct tock_request request, uint32_t number, const void *buffer,
                                                    size_t size, struct tock_completion *completion)
{
    returncode_t code = tock_command_return_novalue_to_returncode(
        tock_allow_readonly(request.driver, number, buffer, size));
    if (code == RETURNCODE_SUCCESS) {
        code = tock_await_alone(request, completion);
        tock_allow_readonly(request.driver, number, NULL, 0);
    }
    return code;
}

static inline returncode_t tock_await_alone_writing(struct tock_request request, uint32_t number, void *buffer,
                                                    size_t size, struct tock_completion *completion)
{
    returncode_t code = tock_command_return_novalue_to_returncode(
        tock_allow_readwrite(request.driver, number, buffer, size));
    if (code == RETURNCODE_SUCCESS) {
        code = tock_await_alone(request, completion);
        tock_allow_readwrite(request.driver, number, NULL, 0);
    }
    return code;
}

#endif
