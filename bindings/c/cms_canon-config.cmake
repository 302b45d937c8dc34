# find_package(cms_canon) defines two targets: cms_canon::cms_canon, the shared library, and cms_canon::static.
get_filename_component(_cms_canon_libraries "${CMAKE_CURRENT_LIST_DIR}" REALPATH)
get_filename_component(_cms_canon_libraries "${_cms_canon_libraries}/../.." ABSOLUTE)

# The header is in the folder beside that of the libraries, or one above it if they are in one named after the processor.
foreach(_cms_canon_up .. ../..)
  if(NOT cms_canon_INCLUDE_DIR AND EXISTS "${_cms_canon_libraries}/${_cms_canon_up}/include/cms_canon.h")
    get_filename_component(cms_canon_INCLUDE_DIR "${_cms_canon_libraries}/${_cms_canon_up}/include" ABSOLUTE)
  endif()
endforeach()

foreach(_cms_canon_file "${_cms_canon_libraries}/libcms_canon.so.1" "${_cms_canon_libraries}/libcms_canon.a" "${cms_canon_INCLUDE_DIR}/cms_canon.h")
  if(NOT EXISTS "${_cms_canon_file}")
    set(cms_canon_FOUND FALSE)
    set(cms_canon_NOT_FOUND_MESSAGE "${_cms_canon_file} is missing")
    return()
  endif()
endforeach()

if(NOT TARGET cms_canon::cms_canon)
  add_library(cms_canon::cms_canon SHARED IMPORTED)
  set_target_properties(cms_canon::cms_canon PROPERTIES
    IMPORTED_LOCATION "${_cms_canon_libraries}/libcms_canon.so.1"
    IMPORTED_SONAME libcms_canon.so.1
    INTERFACE_INCLUDE_DIRECTORIES "${cms_canon_INCLUDE_DIR}")
  add_library(cms_canon::static STATIC IMPORTED)
  set_target_properties(cms_canon::static PROPERTIES
    IMPORTED_LOCATION "${_cms_canon_libraries}/libcms_canon.a"
    INTERFACE_INCLUDE_DIRECTORIES "${cms_canon_INCLUDE_DIR}")
endif()

unset(_cms_canon_file)
unset(_cms_canon_libraries)
unset(_cms_canon_up)
