# SPDX-License-Identifier: MIT OR Apache-2.0
# The targets halfgates::halfgates, the shared library, and halfgates::static, the archive.
if(NOT TARGET halfgates::halfgates)
  get_filename_component(_halfgates_prefix "${CMAKE_CURRENT_LIST_DIR}/../../../.." ABSOLUTE)
  add_library(halfgates::halfgates SHARED IMPORTED)
  set_target_properties(halfgates::halfgates PROPERTIES
    IMPORTED_LOCATION "${_halfgates_prefix}/lib/aarch64/libhalfgates.so.0"
    IMPORTED_SONAME "libhalfgates.so.0"
    INTERFACE_INCLUDE_DIRECTORIES "${_halfgates_prefix}/include")
  add_library(halfgates::static STATIC IMPORTED)
  set_target_properties(halfgates::static PROPERTIES
    IMPORTED_LOCATION "${_halfgates_prefix}/lib/aarch64/libhalfgates.a"
    INTERFACE_INCLUDE_DIRECTORIES "${_halfgates_prefix}/include")
  unset(_halfgates_prefix)
endif()
