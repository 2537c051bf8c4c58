# domthelv::domthelv: the static library and its headers, wherever the archive was unpacked.
if(CMAKE_SYSTEM_PROCESSOR AND NOT CMAKE_SYSTEM_PROCESSOR MATCHES "^(@PROCESSORS@)$")
  set(domthelv_FOUND FALSE)
  set(domthelv_NOT_FOUND_MESSAGE "this archive is for @PROCESSOR@, and the program for ${CMAKE_SYSTEM_PROCESSOR}")
  return()
endif()
get_filename_component(_domthelv_prefix "${CMAKE_CURRENT_LIST_DIR}/../../.." ABSOLUTE)
if(NOT TARGET domthelv::domthelv)
  add_library(domthelv::domthelv STATIC IMPORTED)
  set_target_properties(domthelv::domthelv PROPERTIES
    IMPORTED_LOCATION "${_domthelv_prefix}/lib/libdomthelv.a"
    INTERFACE_INCLUDE_DIRECTORIES "${_domthelv_prefix}/include")
endif()
unset(_domthelv_prefix)
set(domthelv_FOUND TRUE)
