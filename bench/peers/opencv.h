// OpenCV's opening with a line segment of so many pixels as its kernel, on one thread.
#pragma once
#include "../frame.h"
#include <opencv2/imgproc.hpp>

inline cv::Mat opencv_segment(Direction d, long pixels)
{
    long widest = moved(d, pixels - 1);
    cv::Mat kernel = is_shallow(d) ? cv::Mat::zeros(widest + 1, pixels, CV_8U) : cv::Mat::zeros(pixels, widest + 1, CV_8U);
    for (long i = 0; i < pixels; i++) {
        long aside = is_falling(d) ? widest - moved(d, i) : moved(d, i);
        kernel.at<uint8_t>(is_shallow(d) ? aside : i, is_shallow(d) ? i : aside) = 1;
    }
    return kernel;
}

// An erosion, then a dilation that looks the other way: with the kernel turned by half, from the opposite anchor. `morphologyEx` does not turn, which for an even
// count of pixels moves the picture by one.
inline void opencv_open(const Frame &src, const cv::Mat &kernel, Frame &dst)
{
    cv::Mat from(src.height, src.width, CV_8U, const_cast<uint8_t *>(src.bytes.data()), src.stride);
    cv::Mat to(dst.height, dst.width, CV_8U, dst.bytes.data(), dst.stride);
    cv::Point middle(kernel.cols / 2, kernel.rows / 2), opposite(kernel.cols - 1 - middle.x, kernel.rows - 1 - middle.y);
    cv::Mat turned;
    cv::flip(kernel, turned, -1);
    cv::erode(from, to, kernel, middle);
    cv::dilate(to, to, turned, opposite);
}
