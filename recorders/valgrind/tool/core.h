/* The core's headers that the tool needs, and functions that its tool headers leave out: as pub_core_libcfile.h and
 * pub_core_syscall.h of Valgrind 3.19 to 3.24 declare them. */
#ifndef CORE_H
#define CORE_H

#include "pub_tool_basics.h"
#include "pub_tool_vki.h"
#include "pub_tool_vkiscnums.h"
#include "pub_tool_tooliface.h"
#include "pub_tool_aspacemgr.h"
#include "pub_tool_clientstate.h"
#include "pub_tool_clreq.h"
#include "pub_tool_debuginfo.h"
#include "pub_tool_libcassert.h"
#include "pub_tool_libcbase.h"
#include "pub_tool_libcfile.h"
#include "pub_tool_libcprint.h"
#include "pub_tool_libcproc.h"
#include "pub_tool_machine.h"
#include "pub_tool_mallocfree.h"
#include "pub_tool_options.h"
#include "pub_tool_stacktrace.h"
#include "pub_tool_threadstate.h"
#include "pub_tool_xarray.h"
#include "libvex_guest_amd64.h"

/* safe_fd: a descriptor like this one, out of the program's reach; this one is closed. */
extern const HChar *VG_(strerror)(UWord error);
extern Int VG_(safe_fd)(Int descriptor);
extern Int VG_(fd_soft_limit), VG_(fd_hard_limit);
extern Int VG_(getrlimit)(Int resource, struct vki_rlimit *limit);
extern Int VG_(setrlimit)(Int resource, const struct vki_rlimit *limit);
extern SysRes VG_(mk_SysRes_Success)(UWord result);
extern SysRes VG_(pread)(Int descriptor, void *buffer, Int count, OffT offset);
extern Int VG_(fcntl)(Int descriptor, Int command, Addr argument);
extern SysRes VG_(do_syscall)(UWord number, RegWord, RegWord, RegWord, RegWord, RegWord, RegWord, RegWord, RegWord);
extern void VG_(vg_yield)(void); /* gives up the lock, and takes it again */

/* Which code is looked at before it runs, whether it has changed. As pub_core_options.h has it. */
enum { CHECK_ALL_CODE = 2 };
extern Int VG_(clo_smc_check);

#endif
