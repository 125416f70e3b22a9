# find_package(hl) defines hl::hl: the archive and the headers for C and C++, wherever the folder lies.
if(NOT TARGET hl::hl)
  get_filename_component(_hl_prefix "${CMAKE_CURRENT_LIST_DIR}/../../.." ABSOLUTE)
  add_library(hl::hl STATIC IMPORTED)
  set_target_properties(hl::hl PROPERTIES
    IMPORTED_LOCATION "${_hl_prefix}/lib/libhl.a"
    IMPORTED_LINK_INTERFACE_LANGUAGES C
    INTERFACE_INCLUDE_DIRECTORIES "${_hl_prefix}/include")
  # The headers for C++ want C++17, and that of logs has threads.
  get_property(_hl_languages GLOBAL PROPERTY ENABLED_LANGUAGES)
  list(FIND _hl_languages CXX _hl_cxx)
  if(NOT _hl_cxx EQUAL -1)
    include(CMakeFindDependencyMacro)
    find_dependency(Threads)
    set_target_properties(hl::hl PROPERTIES
      INTERFACE_COMPILE_FEATURES cxx_std_17
      INTERFACE_LINK_LIBRARIES Threads::Threads)
  endif()
  unset(_hl_cxx)
  unset(_hl_languages)
  unset(_hl_prefix)
endif()
