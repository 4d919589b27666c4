# Stands for the commands of vcpkg that packaging/recipes/vcpkg/portfile.cmake calls. Its archives lie in the
# folder DIST.
cmake_policy(VERSION 3.18)

function(vcpkg_download_distfile path)
  cmake_parse_arguments(PARSE_ARGV 1 given "" "URLS;FILENAME;SHA512" "")
  if(NOT given_URLS MATCHES "/${given_FILENAME}$")
    message(FATAL_ERROR "another file than ${given_URLS}: ${given_FILENAME}")
  endif()
  file(SHA512 "${DIST}/${given_FILENAME}" sum)
  if(NOT sum STREQUAL given_SHA512)
    message(FATAL_ERROR "another checksum of ${given_FILENAME}")
  endif()
  set(${path} "${DIST}/${given_FILENAME}" PARENT_SCOPE)
endfunction()

function(vcpkg_extract_source_archive path)
  cmake_parse_arguments(PARSE_ARGV 1 given "" "ARCHIVE" "")
  file(REMOVE_RECURSE "${WORK}/source")
  file(ARCHIVE_EXTRACT INPUT "${given_ARCHIVE}" DESTINATION "${WORK}/source")
  file(GLOB folder "${WORK}/source/*")
  set(${path} "${folder}" PARENT_SCOPE)
endfunction()

function(vcpkg_install_copyright)
  cmake_parse_arguments(PARSE_ARGV 0 given "" "" "FILE_LIST")
  file(COPY ${given_FILE_LIST} DESTINATION "${CURRENT_PACKAGES_DIR}/share/trirast")
endfunction()

include("${PORT}/portfile.cmake")
