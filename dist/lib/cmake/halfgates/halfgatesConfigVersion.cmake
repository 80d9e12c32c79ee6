# SPDX-License-Identifier: MIT OR Apache-2.0
# A release serves where an earlier one of the same soname is asked for, which has the same major version. A range also
# names the last release, or the first one that is too late.
set(PACKAGE_VERSION 0.9.9)
string(REGEX MATCH "^[0-9]+" _halfgates_major "${PACKAGE_VERSION}")
if(PACKAGE_FIND_VERSION VERSION_EQUAL PACKAGE_VERSION)
  set(PACKAGE_VERSION_EXACT TRUE)
endif()
if(PACKAGE_FIND_VERSION_MAJOR EQUAL _halfgates_major AND NOT PACKAGE_FIND_VERSION VERSION_GREATER PACKAGE_VERSION)
  set(PACKAGE_VERSION_COMPATIBLE TRUE)
endif()
if(PACKAGE_FIND_VERSION_RANGE)
  if(PACKAGE_VERSION VERSION_GREATER PACKAGE_FIND_VERSION_MAX)
    set(PACKAGE_VERSION_UNSUITABLE TRUE)
  elseif(PACKAGE_FIND_VERSION_RANGE_MAX STREQUAL "EXCLUDE" AND PACKAGE_VERSION VERSION_EQUAL PACKAGE_FIND_VERSION_MAX)
    set(PACKAGE_VERSION_UNSUITABLE TRUE)
  endif()
endif()
unset(_halfgates_major)
