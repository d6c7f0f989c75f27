# The targets piecepick::piecepick (shared) and piecepick::piecepick_static. Paths are told from where this file lies, so that the folder
# may be moved.
get_filename_component(_piecepick_here "${CMAKE_CURRENT_LIST_DIR}" REALPATH)
get_filename_component(_piecepick_lib "${_piecepick_here}/../.." ABSOLUTE)
get_filename_component(_piecepick_include "../include" ABSOLUTE BASE_DIR "${_piecepick_lib}")
if(NOT TARGET piecepick::piecepick)
  add_library(piecepick::piecepick SHARED IMPORTED)
  set_target_properties(piecepick::piecepick PROPERTIES
    IMPORTED_LOCATION "${_piecepick_lib}/libpiecepick.so.1"
    IMPORTED_SONAME "libpiecepick.so.1"
    INTERFACE_INCLUDE_DIRECTORIES "${_piecepick_include}")
  add_library(piecepick::piecepick_static STATIC IMPORTED)
  set_target_properties(piecepick::piecepick_static PROPERTIES
    IMPORTED_LOCATION "${_piecepick_lib}/libpiecepick.a"
    IMPORTED_LINK_INTERFACE_LANGUAGES "C"
    INTERFACE_INCLUDE_DIRECTORIES "${_piecepick_include}")
endif()
foreach(_piecepick_file "${_piecepick_lib}/libpiecepick.so.1" "${_piecepick_lib}/libpiecepick.a" "${_piecepick_include}/piecepick.h")
  if(NOT EXISTS "${_piecepick_file}")
    set(piecepick_FOUND FALSE)
    set(piecepick_NOT_FOUND_MESSAGE "${_piecepick_file} is missing")
  endif()
endforeach()
unset(_piecepick_file)
unset(_piecepick_here)
unset(_piecepick_lib)
unset(_piecepick_include)
