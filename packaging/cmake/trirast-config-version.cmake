# A release serves a program that asks for an earlier one, if the numbers that a breaking change raises are the same:
# before 1.0.0 the first two, and from then on the first.
set(PACKAGE_VERSION "@VERSION@")
set(trirast_BREAKING "^[0-9]+")
if(PACKAGE_VERSION MATCHES "^0\\.")
  set(trirast_BREAKING "^0\\.[0-9]+")
endif()
string(REGEX MATCH "${trirast_BREAKING}" trirast_HAS "${PACKAGE_VERSION}")
string(REGEX MATCH "${trirast_BREAKING}" trirast_WANTS "${PACKAGE_FIND_VERSION}")

set(PACKAGE_VERSION_COMPATIBLE FALSE)
set(PACKAGE_VERSION_EXACT FALSE)
if(PACKAGE_VERSION VERSION_EQUAL PACKAGE_FIND_VERSION)
  set(PACKAGE_VERSION_EXACT TRUE)
  set(PACKAGE_VERSION_COMPATIBLE TRUE)
elseif(trirast_HAS STREQUAL trirast_WANTS AND NOT PACKAGE_VERSION VERSION_LESS PACKAGE_FIND_VERSION)
  set(PACKAGE_VERSION_COMPATIBLE TRUE)
endif()
