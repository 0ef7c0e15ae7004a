# find_package(pmtrace): pmtrace::pmtrace has the folder of pmtrace.h, and pthread.
include(CMakeFindDependencyMacro)
find_dependency(Threads)
if(NOT TARGET pmtrace::pmtrace)
  get_filename_component(pmtrace_prefix "${CMAKE_CURRENT_LIST_DIR}/../../.." ABSOLUTE)
  add_library(pmtrace::pmtrace INTERFACE IMPORTED)
  set_target_properties(pmtrace::pmtrace PROPERTIES
    INTERFACE_INCLUDE_DIRECTORIES "${pmtrace_prefix}/include"
    INTERFACE_LINK_LIBRARIES Threads::Threads)
  unset(pmtrace_prefix)
endif()
