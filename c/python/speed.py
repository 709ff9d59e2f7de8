#!/usr/bin/env python3
"""How long the signing of a small request takes from Python, in microseconds, by each of Firuvaik, botocore and the AWS Common Runtime
that is there. All sign the same request; the number of requests is the argument.
"""
import datetime
import sys
import time

import firuvaik

KEY_ID, SECRET = "AKIDEXAMPLE", "wJalrXUtnFEMI/K7MDENG+bPxRfiCYEXAMPLEKEY"
PLACE, PATH = "iam.amazonaws.com", "/?Action=ListUsers&Version=2010-05-08"
HEADERS = {"content-type": "application/x-www-form-urlencoded; charset=utf-8", "accept": "*/*"}
NOW = datetime.datetime(2015, 8, 30, 12, 36, tzinfo=datetime.timezone.utc)


def by_firuvaik():
    signer = firuvaik.Signer(KEY_ID, SECRET, "us-east-1", "iam")
    return lambda: firuvaik.sign(signer, "GET", f"https://{PLACE}{PATH}", HEADERS, at=NOW)[0]["authorization"]


def by_botocore():
    import botocore.auth
    import botocore.awsrequest
    import botocore.credentials
    auth = botocore.auth.SigV4Auth(botocore.credentials.Credentials(KEY_ID, SECRET), "iam", "us-east-1")

    def sign():
        request = botocore.awsrequest.AWSRequest("GET", f"https://{PLACE}{PATH}", HEADERS)
        auth.add_auth(request)
        return request.headers["Authorization"]

    return sign


def by_common_runtime():
    from awscrt import auth, http
    provider = auth.AwsCredentialsProvider.new_static(KEY_ID, SECRET)

    def sign():
        request = http.HttpRequest("GET", PATH, http.HttpHeaders([("host", PLACE), *HEADERS.items()]))
        config = auth.AwsSigningConfig(
            algorithm=auth.AwsSigningAlgorithm.V4, signature_type=auth.AwsSignatureType.HTTP_REQUEST_HEADERS,
            credentials_provider=provider, region="us-east-1", service="iam", date=NOW)
        return auth.aws_sign_request(request, config).result().headers.get("Authorization")

    return sign


if __name__ == "__main__":
    count = int(sys.argv[1]) if len(sys.argv) > 1 else 2000
    for made in (by_firuvaik, by_botocore, by_common_runtime):
        try:
            sign = made()
        except ImportError:
            print(made.__name__, "isn't there")
            continue
        start = time.perf_counter()
        for _ in range(count):
            sign()
        print(made.__name__, f"{(time.perf_counter() - start) * 1e6 / count:.0f}")
