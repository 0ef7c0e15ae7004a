#include "interface.h"

#include "atomics.h"

#ifndef PMTRACE_OFF

#include "functions.h"

#else

#include "off.h"

#endif

#ifdef __cplusplus
}
#endif

#endif /* PMTRACE_H */

#if defined PMTRACE_IMPLEMENTATION && !defined PMTRACE_OFF && !defined PMTRACE_IMPLEMENTED_
#define PMTRACE_IMPLEMENTED_

#include "state.h"

#include "telling.h"

#include "folder.h"

#include "output.h"

#include "threads.h"

#include "sites.h"

#include "events.h"

#include "pools.h"

#include "window.h"

#include "ages.h"

#include "pages.h"

#include "watch.h"

#include "base.h"

#include "notes.h"

#include "mapping.h"

#include "calls.h"

#include "ends.h"

#include "opening.h"

#include "stores.h"

#include "flushes.h"

#endif /* PMTRACE_IMPLEMENTATION */
