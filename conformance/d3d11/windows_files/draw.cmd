@cd /d "%~dp0" && rasterize.exe --device warp < requests.bin > answers-warp.bin
@rasterize.exe --device hardware < requests.bin > answers-hardware.bin
@rasterize-vulkan.exe --device hardware < requests-vulkan.bin > answers-vulkan.bin
@pause
