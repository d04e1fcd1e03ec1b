# What find_package(zebludor) gives in CMake: the targets zebludor::chips, zebludor::program and zebludor::dpi, which have the header's
# folder with them.
get_filename_component(_zebludor_lib "${CMAKE_CURRENT_LIST_DIR}/../.." ABSOLUTE)
set(_zebludor_include "${_zebludor_lib}/../c")
if(NOT EXISTS "${_zebludor_include}/zebludor.h") # where a Debian package has it
  set(_zebludor_include "/usr/include")
endif()

function(_zebludor_add name)
  if(TARGET zebludor::${name})
    return()
  endif()
  add_library(zebludor::${name} STATIC IMPORTED)
  set(parts "")
  foreach(part ${ARGN})
    list(APPEND parts "${_zebludor_lib}/libzebludor_${part}.a")
  endforeach()
  set_target_properties(zebludor::${name} PROPERTIES
    IMPORTED_LOCATION "${_zebludor_lib}/libzebludor_${name}.a"
    INTERFACE_INCLUDE_DIRECTORIES "${_zebludor_include}"
    INTERFACE_LINK_LIBRARIES "${parts}")
endfunction()

_zebludor_add(chips)
_zebludor_add(program memory)
_zebludor_add(dpi chips program memory)
