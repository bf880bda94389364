# A toolchain: compiles with blade-cc, and judges each executable when it is linked. Licence: public domain (CC0).
set(CMAKE_SYSTEM_NAME Generic)
set(CMAKE_SYSTEM_PROCESSOR wasm32)
# CMake's trials have no secrets to declare: they are compiled alone.
set(CMAKE_TRY_COMPILE_TARGET_TYPE STATIC_LIBRARY)
find_program(BLADE_CC blade-cc HINTS ${CMAKE_CURRENT_LIST_DIR}/../../companions REQUIRED)
set(CMAKE_C_COMPILER ${BLADE_CC})
set(CMAKE_CXX_COMPILER ${BLADE_CC})
# The system's ar doesn't index objects of wasm: package llvm.
find_program(CMAKE_AR NAMES llvm-ar llvm-ar-19 llvm-ar-18 llvm-ar-17 llvm-ar-16 llvm-ar-15 llvm-ar-14 REQUIRED)
find_program(CMAKE_RANLIB NAMES llvm-ranlib llvm-ranlib-19 llvm-ranlib-18 llvm-ranlib-17 llvm-ranlib-16 llvm-ranlib-15 llvm-ranlib-14 REQUIRED)
