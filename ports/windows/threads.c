// Threads, and each thread's last error. Nothing proves this file.
#include "edge.h"

enum { STACK_BYTES = 8 << 20, FUTEX = 202 };
typedef void *(SYSTEM_V *thread_body)(void *);

// A thread that the program started. It has two holders: itself, and who joins or detaches it.
struct thread {
    int error;
    HANDLE handle;
    thread_body body;
    void *given, *returned;
    LONG holders;
};

static DWORD slot;
static struct thread first;

BOOL begin_threads(void)
{
    slot = TlsAlloc();
    return slot != TLS_OUT_OF_INDEXES && TlsSetValue(slot, &first);
}

static struct thread *self(void)
{
    return TlsGetValue(slot);
}

int failed(enum error_number error)
{
    self()->error = error;
    return -1;
}

// Stands for __errno_location: where the calling thread's last error is. No other thread writes there.
PORT int *port___errno_location(void)
{
    return &self()->error;
}

static void let_go(struct thread *thread)
{
    if (!InterlockedDecrement(&thread->holders))
        port_free(thread);
}

static DWORD WINAPI run_thread(void *given)
{
    struct thread *thread = given;
    if (!TlsSetValue(slot, thread))
        TerminateProcess(GetCurrentProcess(), 134);
    thread->returned = thread->body(thread->given);
    let_go(thread);
    return 0;
}

// Stands for pthread_create. 0, and a thread calls the body once with what is given; or an error's number, and none does.
// What the new thread sees was written before the call. Its stack may grow to 8 MiB; the attributes, a guard's size, are
// Windows' own.
PORT int port_pthread_create(uint64_t *made, const void *attributes, thread_body body, void *given)
{
    (void)attributes;
    struct thread *thread = port_malloc(sizeof *thread);
    if (!thread)
        return TRY_AGAIN;
    *thread = (struct thread){.body = body, .given = given, .holders = 2};
    DWORD how = CREATE_SUSPENDED | STACK_SIZE_PARAM_IS_A_RESERVATION;
    thread->handle = CreateThread(NULL, STACK_BYTES, run_thread, thread, how, NULL);
    if (!thread->handle) {
        port_free(thread);
        return TRY_AGAIN;
    }
    *made = (uint64_t)(uintptr_t)thread;
    ResumeThread(thread->handle);
    return 0;
}

// Stands for pthread_join. Waits until the thread has returned, and hands on what it returned; 0. What the thread wrote is
// seen after it. It is called at most once of a thread, and not after port_pthread_detach.
PORT int port_pthread_join(uint64_t made, void **returned)
{
    struct thread *thread = (struct thread *)(uintptr_t)made;
    WaitForSingleObject(thread->handle, INFINITE);
    CloseHandle(thread->handle);
    if (returned)
        *returned = thread->returned;
    let_go(thread);
    return 0;
}

// Stands for pthread_detach. Nobody joins the thread any more; 0.
PORT int port_pthread_detach(uint64_t made)
{
    struct thread *thread = (struct thread *)(uintptr_t)made;
    CloseHandle(thread->handle);
    let_go(thread);
    return 0;
}

// Stands for pthread_self: what port_pthread_create made for the calling thread.
PORT uint64_t port_pthread_self(void)
{
    return (uint64_t)(uintptr_t)self();
}

// Stand for pthread_attr_init, pthread_attr_setguardsize and pthread_attr_destroy. They keep nothing: each stack has a
// guard page. 0.
PORT int port_pthread_attr_init(void *attributes)
{
    (void)attributes;
    return 0;
}

PORT int port_pthread_attr_setguardsize(void *attributes, uint64_t size)
{
    (void)attributes, (void)size;
    return 0;
}

PORT int port_pthread_attr_destroy(void *attributes)
{
    (void)attributes;
    return 0;
}

// Stands for sched_yield: lets another thread run first, where one waits. 0.
PORT int port_sched_yield(void)
{
    SwitchToThread();
    return 0;
}

// Stands for syscall. The program makes one call by it, FUTEX_WAIT on a word that nobody changes, to wait for ever. Any other
// number is refused.
PORT int64_t port_syscall(int64_t number, ...)
{
    if (number != FUTEX)
        return failed(NO_SUCH_CALL);
    for (;;)
        Sleep(INFINITE);
}
