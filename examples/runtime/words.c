// The words of TRD 104 for codes.

#include <libtock/tock.h>

const char *tock_strerr(statuscode_t status)
{
    switch (status) {
    case TOCK_STATUSCODE_SUCCESS: return "SUCCESS";
    case TOCK_STATUSCODE_FAIL: return "FAIL";
    case TOCK_STATUSCODE_BUSY: return "BUSY";
    case TOCK_STATUSCODE_ALREADY: return "ALREADY";
    case TOCK_STATUSCODE_OFF: return "OFF";
    case TOCK_STATUSCODE_RESERVE: return "RESERVE";
    case TOCK_STATUSCODE_INVAL: return "INVAL";
    case TOCK_STATUSCODE_SIZE: return "SIZE";
    case TOCK_STATUSCODE_CANCEL: return "CANCEL";
    case TOCK_STATUSCODE_NOMEM: return "NOMEM";
    case TOCK_STATUSCODE_NOSUPPORT: return "NOSUPPORT";
    case TOCK_STATUSCODE_NODEVICE: return "NODEVICE";
    case TOCK_STATUSCODE_UNINSTALLED: return "UNINSTALLED";
    case TOCK_STATUSCODE_NOACK: return "NOACK";
    case TOCK_STATUSCODE_BADRVAL: return "BADRVAL";
    }
    return "unknown";
}

const char *tock_strrcode(returncode_t code)
{
    return tock_strerr((statuscode_t)-(int)code);
}
